#!/usr/bin/env python3
"""Tries tools/find.py with sets that answer well and badly, and tools/announce.py in the place of a set.

    tests/find.py [PROGRAM ..]    the words of the program before its commands

All sets are at loopback addresses of this machine, and nothing is sent to a group. At the end the three commands of
GUIDE that find, watch and show a television are run as they stand there.
"""
import os
import pathlib
import re
import resource
import shlex
import signal
import socket
import subprocess
import sys
import tempfile
import threading
import time

sys.dont_write_bytecode = True
from checks import TOP, Checks, ports, program

sys.path.insert(0, str(TOP / "tools"))
from page_server import all_of, asked, events
from peer import Listener

FIND, ANNOUNCE, GUIDE = TOP / "tools" / "find.py", TOP / "tools" / "announce.py", TOP / "docs" / "GUIDE.md"
SERVICE = "urn:dial-multiscreen-org:service:dial:1"
SEARCH = f'M-SEARCH * HTTP/1.1\r\nHOST: 239.255.255.250:1900\r\nMAN: "ssdp:discover"\r\nMX: 1\r\nST: {SERVICE}\r\n\r\n'
PATIENCE = 120  # Only what hangs takes so many seconds, also on a busy machine.
MEMORY = 150_000  # KiB. Python alone takes 30,000.
check = Checks()
STARTED = []


# ---- what sets say

# HERE is a set's own host and port, HOST its host alone, AWAY a place that nobody may ask, LENGTH that of the body.
ANSWER = f"HTTP/1.1 200 OK\r\nEXT:\r\nLOCATION: http://HERE/d.xml\r\nST: {SERVICE}\r\n\r\n"
NAMED = '<root xmlns="urn:schemas-upnp-org:device-1-0"><device><friendlyName>NAME</friendlyName></device></root>'
TOLD = ('<service xmlns="urn:dial-multiscreen-org:schemas:dial"><name>HbbTV</name><additionalData>'
        '<X_HbbTV_InterDevSyncURL>ws://HERE/cii</X_HbbTV_InterDevSyncURL></additionalData></service>')
URLS = "Application-URL: http://HERE/apps\r\n"
OK, ENDS = b"HTTP/1.1 200 OK\r\n", None
ESCAPES = "\x1b]0;title\x07\x1b[2J"
BOMB = ('<?xml version="1.0"?><!DOCTYPE l [<!ENTITY a "ha">' + "".join(
    f'<!ENTITY {two} "{f"&{one};" * 10}">' for one, two in zip("abcdefgh", "bcdefghi")) + "]><l>&i;</l>")


def http(body, head="", first="HTTP/1.1 200 OK", length="LENGTH"):
    """An HTTP answer."""
    data = body if isinstance(body, bytes) else body.encode()
    return f"{first}\r\n{head}Content-Length: {length}\r\n\r\n".encode() + data


def described(name="a set", head=URLS, **how):
    return {"description": http(NAMED.replace("NAME", name), head, **how)}


def told(before="", after="", **how):
    """The application, with something in the place of something else."""
    return {"application": http(TOLD.replace(before, after, 1), **how)}


def answered(before="", after=""):
    return {"answer": ANSWER.replace(before, after, 1)}


def pieces(text):
    return [*(f"1\r\n{letter}\r\n" for letter in text), "0\r\n\r\n"]


def again(part, first=b"", apart=0):
    """Says the same again and again, for as long as somebody reads it."""
    yield first
    end = time.monotonic() + PATIENCE
    while time.monotonic() < end:
        yield part
        time.sleep(apart)


# What is wrong with a set, and what is said of it.
BAD = [
    ("its answer has no LOCATION", answered("LOCATION", "X-LOCATION")),
    ("its answer has no LOCATION", answered("http://HERE/d.xml")),
    ("it answers another question", answered("dial:1", "dial:2")),
    ("it answers another question", answered("200 OK", "500 No")),
    ("it answers another question", {"answer": b"\xff\x00\x1b" * 1000}),
    ("its LOCATION is of another host: http://AWAY/d.xml", answered("HERE", "AWAY")),
    ("its LOCATION is of another host: http://localhost:80/", answered("HERE/d.xml", "localhost:80/")),
    ("its LOCATION is no URL: http://HERE@AWAY/d.xml", answered("HERE", "HERE@AWAY")),
    ("its LOCATION is no URL: http://HERE0000/d.xml", answered("HERE", "HERE0000")),
    ("its LOCATION is no URL: http://HOST:65536/d.xml", answered("HERE", "HOST:65536")),
    ("its LOCATION is no URL: ?]0;title??[2J", answered("http://HERE/d.xml", ESCAPES)),
    ("its LOCATION isn't http: https://HERE/d.xml", answered("http:", "https:")),
    ("its LOCATION isn't http: file://HOST/etc/passwd", answered("http://HERE/d.xml", "file://HOST/etc/passwd")),
    ("[Errno 111] Connection refused", answered("HERE", "HOST:1")),
    ("/d.xml has HTTP status 404", described(first="HTTP/1.1 404 Not Found")),
    ("/d.xml has HTTP status 302", described(head="Location: http://AWAY/d.xml\r\n", first="HTTP/1.1 302 Found")),
    ("a set: /apps/HbbTV has HTTP status 404", told(first="HTTP/1.1 404 Not Found")),
    ("a set: /apps/HbbTV has HTTP status 307", told(head="Location: http://AWAY/\r\n", first="HTTP/1.1 307 Moved")),
    ("a set tells no Application-URL", described(head="")),
    ("its Application-URL is of another host: http://AWAY/apps", described(head=URLS.replace("HERE", "AWAY"))),
    ("its Application-URL is no URL: http://HERE/?]0;title??[2J", described(head=URLS.replace("apps", ESCAPES))),
    ("its Application-URL isn't http: ws://HERE/apps", described(head=URLS.replace("http:", "ws:"))),
    ("what it says is no XML: ", {"description": http("<html><br></html>", URLS)}),
    ("what it says is no XML: ", {"description": http("", URLS)}),
    ("what it says is no XML: ", {"description": lambda: [http(NAMED[:-9], URLS, length=1000), ENDS]}),
    ("what it says is no XML: ", {"description": http(BOMB.encode("utf-16"), URLS)}),
    ("what it says is no XML: ", {"application": http("<a>" * 20_000)}),
    ("its XML declares a document type or entities", {"description": http(BOMB, URLS)}),
    ("it says more than 65536 bytes", {"description": http(b" " * 10_000_000, URLS)}),
    ("a set: it says more than 65536 bytes", {"application": lambda: again(b" " * 1_000_000, OK + b"\r\n")}),
    ("a set: it says more than 65536 bytes",
     {"application": lambda: again(b" " * 1_000_000, OK + b"Content-Length: 9999999999999\r\n\r\n")}),
    ("a set: it says more than 65536 bytes",
     {"application": lambda: again(b"8000\r\n%s\r\n" % (b" " * 0x8000), OK + b"Transfer-Encoding: chunked\r\n\r\n")}),
    ("it says more than 65536 bytes", {"description": lambda: again(b"HTTP/1.1 100 Continue\r\n\r\n" * 1000)}),
    ("it says more than 65536 bytes", {"description": lambda: again(b"H" * 100_000)}),
    ("got more than 100 headers", {"application": lambda: again(b"A: b\r\n" * 100, OK)}),
    ("IncompleteRead(0 bytes read)",
     {"description": lambda: [OK + b"Transfer-Encoding: chunked\r\n\r\nnothing\r\n\r\n"]}),
    ("?]0;title??[2J", {"description": lambda: [ESCAPES.encode() + b"\r\n\r\n"]}),
    ("it takes too long", {"description": b""}),
    ("it takes too long", {"application": lambda: again(b"H", apart=0.1)}),
    ("a set has HbbTV, but tells no X_HbbTV_InterDevSyncURL",
     {"application": http(TOLD.replace("InterDevSync", "App2App"))}),
    ("its X_HbbTV_InterDevSyncURL isn't ws: wss://HERE/cii", told("ws:", "wss:")),
    ("its X_HbbTV_InterDevSyncURL is of another host: ws://AWAY/cii", told("HERE", "AWAY")),
    ("its X_HbbTV_InterDevSyncURL is no URL: ws://HERE/cii -x", told("/cii", "/cii -x")),
    ("its X_HbbTV_InterDevSyncURL is no URL: ws://HERE/??x", told("/cii", "/\x9b\nx")),
]

# By what name a good set is told, and what is special about it.
GOOD = [
    ("Living room", described("Living room")),
    ("K\u00fcche", described("K\u00fcche", URLS.replace("Application-URL", "APPLICATION-url"))),
    ("K\ufffdche", {"description": http(NAMED.replace("NAME", "K\u00fcche").encode("latin-1"), URLS)}),
    ("&lt;b&gt; & co", described("&amp;lt;b&amp;gt; <![CDATA[& co]]>")),
    ("?[2J??.", described("\x9b[2J\u202e\x85.")),
    ("w" * 100, described("w" * 30_000)),
    ("HOST", {"description": http("<root/>", URLS)}),
    ("a prefix", {**described("a prefix"), "application": http(TOLD.replace("X_Hbb", "hbbtv:X_Hbb"))}),
    ("a slash", described("a slash", URLS.replace("apps", "apps/"))),
    ("white space", {**described("\n white space\n"), **told("ws://HERE/cii", "\n\tws://HERE/cii\n")}),
    ("no length", {**described("no length"), "application": lambda: [OK + b"\r\n", TOLD, ENDS]}),
    ("in pieces", {"description": lambda: [OK, URLS, "Transfer-Encoding: chunked\r\n\r\n",
                                           *pieces(NAMED.replace("NAME", "in pieces"))]}),
    ("twice", {**described("twice"), "answer": lambda: [ANSWER, ANSWER.replace("LOCATION", "location")]}),
]


# ---- a network of made up sets

class Fake:
    """A set at an address of its own. It answers a search, then for its description, then for its application. Where
    one of them is a function, it says all that this gives, one after another."""

    def __init__(self, host, away, answer=ANSWER, description=described()["description"], application=http(TOLD)):
        self.host, self.away = host, away
        self.answer, self.description, self.application = answer, description, application
        self.speaks = socket.socket(socket.AF_INET, socket.SOCK_DGRAM)
        self.speaks.bind((host, 0))
        self.listener = Listener(self.serve, 0, host)
        self.url = self.filled("ws://HERE/cii").decode()

    def filled(self, said):
        data = said if isinstance(said, bytes) else said.encode()
        marks = ("HERE", f"{self.host}:{self.listener.port}"), ("HOST", self.host), ("AWAY", self.away)
        for mark, value in marks:
            data = data.replace(mark.encode(), value.encode())
        head, end, body = data.partition(b"\r\n\r\n")
        return head.replace(b"LENGTH", b"%d" % len(body)) + end + body

    def parts(self, said):
        for part in said() if callable(said) else [said]:
            yield part if part is ENDS else self.filled(part)

    def serve(self, peer):
        for part in self.parts(self.application if b"/apps/HbbTV " in peer.head() else self.description):
            if part is ENDS:
                peer.conn.shutdown(socket.SHUT_WR)
            else:
                peer.conn.sendall(part)
        peer.take(1, PATIENCE)  # The connection stays open until the other end closes it.

    def end(self):
        self.listener.end()
        self.speaks.close()


class Network:
    """Hears searches at a port of this machine, and each of its sets answers them."""

    def __init__(self, rows, hosts="127.0.0"):
        self.others = Listener(lambda peer: None, 0, "127.0.0.250")
        away = f"127.0.0.250:{self.others.port}"
        self.sets = [Fake(f"{hosts}.{at}", away, **row) for at, row in enumerate(rows, 2)]
        self.searches = []
        self.hears = socket.socket(socket.AF_INET, socket.SOCK_DGRAM)
        self.hears.bind(("127.0.0.1", 0))
        self.to = f"127.0.0.1:{self.hears.getsockname()[1]}"
        threading.Thread(target=self.run, daemon=True).start()

    def run(self):
        while True:
            try:
                search, sender = self.hears.recvfrom(4096)
                self.searches.append(search.decode())
                for one in self.sets:
                    for said in one.parts(one.answer):
                        one.speaks.sendto(said, sender)
            except OSError:
                return

    def end(self):
        self.hears.close()
        self.others.end()
        for one in self.sets:
            one.end()


def find(*words, encoding="utf-8"):
    """The status of a run, and what it wrote on both streams."""
    try:
        done = subprocess.run([sys.executable, FIND, *words], capture_output=True, timeout=PATIENCE, check=False,
                              env={**os.environ, "PYTHONIOENCODING": encoding})
    except subprocess.TimeoutExpired:
        return None, "", "it hung"
    return done.returncode, done.stdout.decode(encoding), done.stderr.decode(encoding)


def find_all(to, enough, *words, encoding="utf-8"):
    """The same where it finds enough. On a busy machine it may need more seconds for it."""
    for seconds in (2, 5, 15, 45):
        end = find("--to", to, "--seconds", str(seconds), *words, encoding=encoding)
        if enough(*end):
            break
    return end


# ---- the checks of find.py

def all_at_once():
    """Each bad answer is skipped with its word, and each good set is found among them."""
    network = Network([row for _, row in BAD + GOOD])
    bad, good = network.sets[:len(BAD)], network.sets[len(BAD):]
    words = [f"skipped {one.host}: {one.filled(why).decode()}" for one, (why, _) in zip(bad, BAD)]
    lines = [f"{one.filled(name).decode()}: {one.url}" for one, (name, _) in zip(good, GOOD)]
    got, out, errors = find_all(network.to, lambda _, out, errors: all(line in errors for line in words)
                                and all(line in out for line in lines))
    most = resource.getrusage(resource.RUSAGE_CHILDREN).ru_maxrss
    for one, (why, _), line in zip(bad, BAD, words):
        of_it = [said for said in errors.splitlines() if f" {one.host}: " in said]
        check(f"skipped: {why[:60]!r}", len(of_it) == 1 and line in of_it[0], of_it)
    for (name, _), line in zip(GOOD, lines):
        check(f"found: {name[:30]!r}", line in out.splitlines())
    check("nothing else is told, by name", got == 0 and out.splitlines() == sorted(lines), (got, out))
    check("nobody else was asked", not network.others.times, len(network.others.times))
    check("no terminal is told anything", all(letter.isprintable() for letter in (out + errors).replace("\n", "")))
    check("it takes little memory", most < MEMORY, f"{most} KiB")
    search = SEARCH.replace("239.255.255.250:1900", network.to)
    check("it searches as DIAL does", {re.sub("MX: [1-5]", "MX: 1", said) for said in network.searches} == {search})
    network.end()


def one_of_several():
    """--one is the same set each time, and another can be chosen."""
    rows = [described(name) for name in ("Living room", "Attic", "K\u00fcche")]
    network = Network(rows)
    urls = [one.url for one in network.sets]

    def all_there(_, out, errors):
        return "3 were found" in errors or "none of them" in errors or len(out.splitlines()) == 3

    got = find_all(network.to, all_there, "--one")
    check("--one is the first by name", got[:2] == (0, f"{urls[1]}\n") and "this is Attic" in got[2], got)
    got = find_all(network.to, lambda status, *_: status == 0, "--one", "--name", "LIVING")
    check("--name chooses another", got == (0, f"{urls[0]}\n", ""), got)
    got = find_all(network.to, all_there, "--one", "--name", "cellar")
    check("a name that none of them has", got[:2] == (1, "") and "Attic, K\u00fcche, Living room" in got[2], got)
    got = find_all(network.to, all_there, encoding="ascii")
    check("a terminal without such letters", got[0] == 0 and f"K?che: {urls[2]}\n" in got[1], got)
    network.end()


def flooded():
    """A set that answers for hundreds, and hundreds of sets."""
    network = Network([{"answer": lambda: [ANSWER.replace("d.xml", str(at)) for at in range(500)]}])
    got = find_all(network.to, lambda _, out, errors: "more than 4 times" in errors)
    lines = [line for line in got[2].splitlines() if "skipped" in line]
    check("a set that answers for hundreds", "127.0.0.2: it answers more than 4 times" in got[2], lines)
    check("it counts for one", got[1] == f"a set: {network.sets[0].url}\n", got[1].strip())
    network.end()
    network = Network([answered("LOCATION", "X-LOCATION")] * 200)
    got = find_all(network.to, lambda _, out, errors: "after 64 answers" in errors)
    lines = [line for line in got[2].splitlines() if "skipped" in line]
    check("hundreds of sets", got[:2] == (1, "") and len(lines) == 65, len(lines))
    network.end()


def nothing_found(port):
    got = find("--to", f"127.0.0.1:{port}", "--seconds", "1", "--one")
    check("nothing is found", got[:2] == (1, "") and all(word in got[2] for word in (
        "same network", "HbbTV", "broadcast", "--interface", "firewall")), got[2].splitlines()[:1])
    got = find("--interface", "192.0.2.1", "--seconds", "1")
    check("an address of another machine", got[:2] == (1, "") and "Cannot assign" in got[2], got)
    for words in ("--seconds 0", "--seconds 61", "--to 127.0.0.1", "--to 127.0.0.1:0", "--interface 1.2.3.4.5", "one"):
        got = find(*words.split())
        said = got[2].splitlines()[-1]
        check(f"refused: {words}", got[:2] == (2, "") and words.split()[0] in said, said)


# ---- the checks of announce.py

class Announced:
    """A run of tools/announce.py, and where it says that its description is."""

    def __init__(self, to, *words):
        self.child = subprocess.Popen([sys.executable, ANNOUNCE, "--to", to, *words], stderr=subprocess.PIPE,
                                      start_new_session=True)
        STARTED.append(self.child)
        self.said = self.child.stderr.readline().decode().strip()
        self.url = self.said.split()[-1] if "announced" in self.said else ""
        self.port = int(self.url.split("/")[2].partition(":")[2]) if self.url else 0

    def got(self, path):
        """What it answers for a path: the head and the body."""
        try:
            head, _, body = all_of(asked(self.port, f"GET {path} HTTP/1.1")).partition(b"\r\n\r\n")
        except OSError:
            return "", ""
        return head.decode(), body.decode()


def drip(conn, over):
    """Asks letter by letter, until it is hung up."""
    try:
        while not over.wait(0.5):
            conn.sendall(b"x")
    except OSError:
        pass


def crowded(tv, path):
    """More slow ones than it has room for hold it up for a while alone."""
    over, end, served = threading.Event(), time.monotonic() + PATIENCE, False
    slow = [socket.create_connection(("127.0.0.1", tv.port)) for _ in range(40)]
    for conn in slow:
        conn.sendall(b"GET / HTTP/1.1\r\nX: ")
        threading.Thread(target=drip, args=(conn, over), daemon=True).start()
    while not served and time.monotonic() < end:
        served = tv.got(path)[0].startswith("HTTP/1.0 200 ")
    over.set()
    return served


def searched(tv, port):
    """It answers the searches for a set, and those alone, with what leads to its description."""
    with socket.socket(socket.AF_INET, socket.SOCK_DGRAM) as asks:
        asks.settimeout(PATIENCE)
        asks.bind(("127.0.0.1", 0))
        for said in (SEARCH.replace("dial:1", "dial:2"), SEARCH.replace("M-SEARCH", "NOTIFY"), "", "\x1b\xff" * 999,
                     SEARCH, SEARCH.replace(SERVICE, "ssdp:all")):
            asks.sendto(said.encode(), ("127.0.0.1", port))
        answers = [asks.recvfrom(4096) for _ in range(2)]
        begun = time.monotonic()
        for _ in range(11):
            asks.sendto(SEARCH.encode(), ("127.0.0.1", port))
        answers += [asks.recvfrom(4096) for _ in range(11)]
        took = time.monotonic() - begun
        asks.settimeout(1)
        try:
            answers.append(asks.recvfrom(4096))
        except TimeoutError:
            pass
    head, _, lines = answers[0][0].decode().partition("\r\n")
    check("it answers the searches for it alone, and all alike", len(answers) == 13 and len(set(answers)) == 1,
          len(answers))
    check("not quicker than twenty a second", took >= 0.5, f"ten in {took:.2f} s")
    check("by its place", answers[0][1] == ("127.0.0.1", port), answers[0][1])
    check("and with its LOCATION", head == "HTTP/1.1 200 OK" and f"\r\nLOCATION: {tv.url}\r\n" in lines
          and f"\r\nST: {SERVICE}\r\n" in lines and lines.endswith(f"::{SERVICE}\r\n\r\n"), tv.url)


def announced(port):
    """What it serves, and the words that it refuses."""
    to = f"127.0.0.1:{port}"
    tv = Announced(to, "--cii", "ws://127.0.0.1:7681/a/cii", "--name", 'Mum & Dad\'s <"TV">')
    check("it says what it announces", "announce.py: ws://127.0.0.1:7681/a/cii is announced by" in tv.said, tv.said)
    searched(tv, port)
    paths = ["/" + tv.url.split("/", 3)[3], "/apps/HbbTV", "/", "/apps", "/../etc/passwd", "/apps/HbbTV/run"]
    heads = [tv.got(path)[0].split("\r\n")[0] for path in paths]
    check("it serves two things", [head.split()[1:2] for head in heads] == [["200"]] * 2 + [["404"]] * 4, heads)
    check("forty who ask too slowly don't hold it up", crowded(tv, paths[0]))
    got = find_all(to, lambda status, *_: status == 0)
    check("it is found", got[:2] == (0, 'Mum & Dad\'s <"TV">: ws://127.0.0.1:7681/a/cii\n'), got)
    second = Announced(to)
    check("its place is its own", second.child.wait(PATIENCE) == 1 and "in use" in second.said, second.said)
    for words in (["--cii", "ws://127.0.0.2:1/"], ["--interface", "127.0.0.2"], ["--cii", "wss://127.0.0.1:1/"],
                  ["--cii", "ws://tv:6677/cii"], ["--name", "\x1b"], ["--name", ""]):
        other = Announced(f"127.0.0.1:{port + 1}", "--seconds", "1", *words)
        said = other.child.stderr.read().decode().strip().rpartition("error: ")[2]
        check(f"refused: {words}", other.child.wait(PATIENCE) == 2, said)
    brief = Announced(f"127.0.0.1:{port + 1}", "--seconds", "1")
    check("it ends in time", brief.child.wait(PATIENCE) == 0 and bool(brief.url))


def alone():
    """Both run where nothing else of this repository is, and say by what name they were called."""
    with tempfile.TemporaryDirectory() as folder:
        for tool, name in ((FIND, "css-find"), (ANNOUNCE, "css-announce")):
            path = pathlib.Path(folder) / name
            path.write_bytes(tool.read_bytes())
            path.chmod(0o755)
            done = subprocess.run([path, "--help"], capture_output=True, check=False, cwd="/", timeout=PATIENCE)
            said = done.stdout.decode()
            options = all(option in said for option in ("--interface ADDRESS", "--to HOST:PORT", "--seconds SECONDS"))
            check(f"{name} --help", done.returncode == 0 and options and said.startswith(f"usage: {name} "), said[:40])


# ---- a new user's trial

def commands(css, port, seconds):
    """GUIDE's commands that find, watch and show a television, for this program, and at these places."""
    page = GUIDE.read_text(encoding="utf-8").partition("## Find your television\n")[2]
    lines = page.partition("```sh\n")[2].partition("```")[0].splitlines()
    here = {"tools/find.py": f"tools/find.py --to 127.0.0.1:{port + 1} --seconds {seconds}", "./css": shlex.join(css),
            "tools/page.py": f"tools/page.py --port {port + 2}", "--seconds 10": f"--seconds {PATIENCE}"}
    return [re.sub("|".join(map(re.escape, here)), lambda found: here[found[0]], line) for line in lines]


def line_of(file, mark):
    """The first line of a stream that has this in it; what came instead, where none has."""
    came = b""
    for line in file:
        came += line
        if mark in line:
            return line.decode(errors="replace").strip()
    return f"(none of these) {came[-500:].decode(errors='replace')}"


def finding(child, port):
    out, errors = (told.decode() for told in child.communicate(timeout=PATIENCE))
    return [("finds the television", out == f"Living room: ws://127.0.0.1:{port}/cii\n", (out + errors).strip())]


def watching(child, _):
    line = line_of(child.stdout, b'"ticks"')
    return [("watches it: a report with ticks", '"event":"report"' in line, line)]


def showing(child, port):
    line = line_of(child.stderr, b"http://")
    made = [("says where its page is", f"http://127.0.0.1:{port + 2}/" in line, line)]
    if made[0][1]:
        page = all_of(asked(port + 2, "GET / HTTP/1.1")).decode()
        made += [("serves the page", page.startswith("HTTP/1.0 200 ") and "</html>" in page, page.partition("\r")[0])]
        *_, last = events(asked(port + 2, "GET /lines HTTP/1.1"), PATIENCE,
                          lambda found: found and re.search('"ticks"|"ended": true', found[-1][2])) or [("", "", "")]
        made += [("and hands a report with ticks to it", '"ticks"' in last[2], last[2])]
    return made


def trial(css, port):
    """Find, watch, page, as GUIDE shows them, with announce.py in the place of a set."""
    words = [*css, "tv", "--relative", "--port", str(port), "--seconds", "600"]
    with open(TOP / "examples" / "evening.script", "rb") as script:
        STARTED.append(subprocess.Popen(words, stdin=script, start_new_session=True))
    Announced(f"127.0.0.1:{port + 1}", "--cii", f"ws://127.0.0.1:{port}/cii", "--name", "Living room")
    check("GUIDE has three commands", len(commands(css, port, 4)) == 3)
    for number, judge in enumerate((finding, watching, showing)):
        for seconds in (4, 15, 45):  # A busy machine may need more of them.
            command = commands(css, port, seconds)[number]
            child = subprocess.Popen(["bash", "-c", command], cwd=TOP, start_new_session=True, stdin=subprocess.DEVNULL,
                                     stdout=subprocess.PIPE, stderr=subprocess.PIPE)
            STARTED.append(child)
            made = judge(child, port)
            stop(child)
            if all(holds for _, holds, _ in made):
                break
        for name, holds, told in made:
            check(f"command {number + 1} {name}", holds, told)


def stop(child):
    """Ends a command with all that it started."""
    try:
        os.killpg(child.pid, signal.SIGKILL)
    except ProcessLookupError:
        pass
    child.wait()


def main(words):
    port, css = ports(), program(words)
    try:
        all_at_once()
        one_of_several()
        flooded()
        nothing_found(port)
        announced(port + 10)
        alone()
        trial(css, port + 20)
    finally:
        for child in STARTED:
            if child.poll() is None:
                stop(child)
    return check.end()


if __name__ == "__main__":
    sys.exit(main(sys.argv[1:]))
