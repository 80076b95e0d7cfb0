"""What tools/page.py does as a server, without a browser: whom it answers, what it hands on, and whom it waits for."""
import json
import os
import pathlib
import re
import shutil
import socket
import subprocess
import sys
import tempfile
import time

from live_edge import patiently

TOOL = pathlib.Path(__file__).resolve().parent.parent / "tools" / "page.py"
STARTED = []


class Page:
    """A run of tools/page.py on a port, fed by this program or by a file."""

    def __init__(self, port, words=(), tool=TOOL):
        self.port = port
        self.child = subprocess.Popen([sys.executable, str(tool), "--port", str(port), *words], bufsize=0,
                                      stdin=subprocess.PIPE, stderr=subprocess.PIPE)
        STARTED.append(self.child)
        self.said = self.child.stderr.readline().decode()
        self.url = self.said.partition(": ")[2].strip()

    def feed(self, *lines):
        self.child.stdin.write("".join(line + "\n" for line in lines).encode())

    def close(self):
        self.child.stdin.close()

    def end(self):
        self.child.kill()
        self.child.wait()
        self.child.stderr.close()


def end_all():
    for child in STARTED:
        if child.poll() is None:
            child.kill()


def asked(port, head, host=None, room=None, address="127.0.0.1"):
    """A connection on which this head was sent; the port's own Host is put in, unless there is another."""
    conn = socket.socket(socket.AF_INET6 if ":" in address else socket.AF_INET)
    if room is not None:
        conn.setsockopt(socket.SOL_SOCKET, socket.SO_RCVBUF, room)
    conn.settimeout(60)
    conn.connect((address, port))
    lines = [head, *([f"Host: 127.0.0.1:{port}"] if host is None else host)]
    conn.sendall(("\r\n".join(lines) + "\r\n\r\n").encode())
    return conn


def all_of(conn):
    """What comes until the connection ends."""
    data = b""
    try:
        while more := conn.recv(65536):
            data += more
    except OSError:
        pass
    conn.close()
    return data


def status(port, head, host=None, address="127.0.0.1"):
    """The status of an answer; 0 where none comes."""
    found = re.match(rb"HTTP/1\.[01] (\d+)", all_of(asked(port, head, host, address=address)))
    return int(found[1]) if found else 0


def events(conn, seconds, enough):
    """The events that come until there are enough of them: (id, name, data), an id being empty where it is none."""
    text, found, end = conn.makefile("rb"), [], time.monotonic() + seconds
    ident = name = ""
    while time.monotonic() < end and not enough(found):
        line = text.readline().decode()
        if not line:
            break
        line = line.rstrip("\n")
        key, _, value = line.partition(": ")
        if key == "id":
            ident = value
        elif key == "event":
            name = value
        elif key == "data":
            found.append((ident, name, value))
            ident = name = ""
    return found


def refusals(check, port):
    """GET alone, two paths alone, the own names alone, and this machine alone."""
    for method in ("POST", "PUT", "DELETE", "HEAD", "OPTIONS", "CONNECT", "LOOK"):
        told = status(port, f"{method} / HTTP/1.1")
        check(f"{method} is refused", told == 405, told)
    for host in ("evil.example", f"evil.example:{port}", "127.0.0.1", f"127.0.0.1:{port + 1}", f"127.0.0.2:{port}",
                 f"localhost.evil.example:{port}", f"[::1]:{port}"):
        told = [status(port, f"GET {path} HTTP/1.1", [f"Host: {host}"]) for path in ("/", "/lines")]
        check(f"the host {host} is refused", told == [403, 403], told)
    both = [f"Host: 127.0.0.1:{port}", "Host: evil.example"]
    check("no host, and two of them, are refused",
          status(port, "GET / HTTP/1.1", []) == status(port, "GET / HTTP/1.1", both) == 403)
    check("localhost is served", status(port, "GET / HTTP/1.1", [f"Host: localhost:{port}"]) == 200)
    paths = ("/etc/passwd", "/../tools/page.py", "/lines/", "/?x", f"http://127.0.0.1:{port}/page.html")
    told = [status(port, f"GET {path} HTTP/1.1") for path in paths]
    check("no other path is there", told == [404] * len(paths), told)
    check("it listens on 127.0.0.1 alone", listens(port) == {"0100007F"}, listens(port))


def other_sites(check, port):
    """A page of another site gets nothing, also where it doesn't have to ask before; a link to the page is followed."""
    own, link = [f"Host: 127.0.0.1:{port}"], "Sec-Fetch-Dest: document"
    for fields, wanted in ((["Origin: http://evil.example"], [403, 403]), (["Origin: null"], [403, 403]),
                           ([f"Origin: https://127.0.0.1:{port}"], [403, 403]),
                           ([f"Origin: http://127.0.0.1:{port + 1}"], [403, 403]),
                           (["Sec-Fetch-Site: cross-site", "Sec-Fetch-Dest: image"], [403, 403]),
                           (["Sec-Fetch-Site: same-site", "Sec-Fetch-Dest: empty"], [403, 403]),
                           (["Sec-Fetch-Site: cross-site", "Sec-Fetch-Dest: iframe"], [403, 403]),
                           (["Sec-Fetch-Site: cross-site"], [403, 403]),
                           (["Sec-Fetch-Site: cross-site", link], [200, 403]),
                           (["Sec-Fetch-Site: none", link], [200, 200]),
                           ([f"Origin: http://127.0.0.1:{port}", "Sec-Fetch-Site: same-origin"], [200, 200])):
        told = [first_status(port, f"GET {path} HTTP/1.1", [*own, *fields]) for path in ("/", "/lines")]
        check(f"a request with {' and '.join(fields)} is answered {wanted}", told == wanted, told)


def first_status(port, head, host, address="127.0.0.1"):
    """The status of an answer that needn't end."""
    conn = asked(port, head, host, address=address)
    said = conn.makefile("rb").readline()
    conn.close()
    return int(said.split()[1]) if said else 0


def for_a_network(check, port, address, written, refused):
    """With --host there is that address alone, and nothing without the token, whatever is asked for."""
    page = Page(port, ["--host", address])
    found = re.fullmatch(rf"http://{re.escape(written)}:{port}/([a-z2-9]{{16}})/", page.url)
    check(f"with --host {address} it says where the page is, with a token", found, page.said.strip())
    check("it listens on this address alone", len(told := listens(port)) == 1 and told != {"0100007F"}, told)
    token, own = found[1], [f"Host: {written}:{port}"]
    page.feed('{"event":"slept","reading":"5"}')
    other = ("b" if token[0] == "a" else "a") + token[1:]
    paths = ["/", "/lines", "/page.html", f"/{token[:-1]}/", f"/{token}x/", f"/{other}/", f"/{other}/lines",
             f"/x/{token}/", f"/{token}/x", f"/{token}lines", f"/lines/{token}", f"/?{token}", f"/{token}/../lines",
             f"/{token}/\xe9", f"/%{ord(token[0]):02x}{token[1:]}/", "/" + "a" * 5000]
    told = {path: first_status(port, f"GET {path} HTTP/1.1", own, address) for path in paths}
    served = [path for path, status in told.items() if status != 404]
    check("without the token nothing is served", not served, served or f"{len(paths)} paths")
    for path in (f"/{token}/", f"/{token}", f"/{token}/lines"):
        told = [first_status(port, f"GET {path} HTTP/1.1", [f"Host: {host}"], address)
                for host in (f"{written}:{port}", *refused, "evil.example", f"evil.example:{port}", written)]
        check(f"with it {path.replace(token, 'TOKEN')} is, by this address alone", told[0] == 200 and
              set(told[1:]) == {403}, told)
        told = first_status(port, f"GET {path} HTTP/1.1", [*own, "Origin: http://evil.example"], address)
        check("and no page of another site gets it", told == 403, told)
    body = all_of(asked(port, f"GET /{other}/ HTTP/1.1", own, address=address))
    check("a refusal has neither the token nor a line", token.encode() not in body and b"slept" not in body)
    lines = events(asked(port, f"GET /{token}/lines HTTP/1.1", own, address=address), 60, bool)
    check("the lines are handed on", lines[0][2] == '{"event":"slept","reading":"5"}', lines[:1])
    page.end()
    return token


def network(check, port):
    """Addresses of this machine's own that stand for those of a network."""
    tokens = [for_a_network(check, port, "127.0.0.2", "127.0.0.2", [f"localhost:{port}", f"127.0.0.1:{port}"])]
    page = Page(port, ["--host", "127.0.0.2"])
    tokens.append(page.url.split("/")[3])
    check("each run has a token of its own", len(set(tokens)) == 2)
    page.end()
    if has_six():
        for_a_network(check, port, "::1", "[::1]", [f"localhost:{port}", f"::1:{port}"])
    else:
        check.skip("the page on ::1", "this machine has no IPv6")
    for word in ("0.0.0.0", "::", "224.0.0.1", "fe80::1%lo", "localhost", "127.0.0.1/8", ""):
        told = subprocess.run([sys.executable, str(TOOL), "--host", word, "--port", str(port)], check=False, timeout=60,
                              stdin=subprocess.DEVNULL, capture_output=True)
        check(f"--host {word or 'of nothing'} is refused", told.returncode == 2 and b"--host" in told.stderr,
              told.stderr[-80:])


def has_six():
    try:
        with socket.socket(socket.AF_INET6) as one:
            one.bind(("::1", 0))
    except OSError:
        return False
    return True


def byte_by_byte(check, port):
    """A head that never ends is given up, though a byte of it comes each second."""
    page = Page(port)
    conn, begun = socket.create_connection(("127.0.0.1", port), 60), time.monotonic()
    ended = False
    for letter in "GET / HTTP/1.1\r\nHost: " + "a" * 200:
        try:
            conn.sendall(letter.encode())
            conn.settimeout(1)
            ended = conn.recv(100) == b""
        except TimeoutError:
            continue
        except OSError:
            ended = True
        if ended or time.monotonic() > begun + 120:
            break
    check("a head that comes byte by byte is given up", ended, f"{time.monotonic() - begun:.0f} s")
    conn.close()
    page.end()


def installed(check, port):
    """As css-page it finds its page in share/css, also by a link; alone it says what it lacks."""
    with tempfile.TemporaryDirectory() as folder:
        top = pathlib.Path(folder)
        program, data = top / "usr/bin/css-page", top / "usr/share/css/page.html"
        program.parent.mkdir(parents=True)
        data.parent.mkdir(parents=True)
        shutil.copy(TOOL, program)
        alone = subprocess.run([sys.executable, str(program), "--port", str(port)], stdin=subprocess.DEVNULL,
                               capture_output=True, check=False, timeout=60)
        check("without its page it says so, with status 1",
              alone.returncode == 1 and b"page.html" in alone.stderr and b"Traceback" not in alone.stderr, alone.stderr)
        for file in (TOOL.with_name("page.html"), TOOL.parent.parent / "javascript" / "css-lines" / "css-lines.js"):
            shutil.copy(file, data.parent)
        (top / "css-page").symlink_to(program)
        for tool in (program, top / "css-page"):
            page = Page(port, tool=tool)
            served = status(port, "GET / HTTP/1.1")
            check(f"as {tool.relative_to(top)} it serves its page", served == 200 and
                  page.said == f"css-page: http://127.0.0.1:{port}/\n", [page.said, served])
            page.end()
    told = subprocess.run([sys.executable, str(TOOL), "--help"], stdin=subprocess.DEVNULL, capture_output=True,
                          check=False, timeout=60)
    lacks = [word for word in ("--host", "--port", "--cii", "--name", "--replay", "--selector", "css-page")
             if word not in told.stdout.decode()]
    check("--help tells each option, with status 0", told.returncode == 0 and not lacks, lacks)


def listens(port):
    """The addresses on which a port of this machine is listened on, as Linux writes them."""
    found = set()
    for name in ("/proc/net/tcp", "/proc/net/tcp6"):
        if os.path.exists(name):
            for line in pathlib.Path(name).read_text(encoding="ascii").splitlines()[1:]:
                address, state = line.split()[1], line.split()[3]
                if state == "0A" and address.endswith(f":{port:04X}"):
                    found.add(address.split(":")[0])
    return found


def heads(check, port):
    head = all_of(asked(port, "GET / HTTP/1.1")).split(b"\r\n\r\n")[0].decode().lower()
    check("the page's policy has no script but its own, and asks nobody else", "default-src 'none'" in head
          and "script-src 'sha256-" in head and "connect-src 'self'" in head and "unsafe" not in head)
    check("no other site may read it", "access-control" not in head and "nosniff" in head)


def handed_on(check, port):
    """The same lines, each with an id to go on from."""
    lines = [f'{{"event":"slept","reading":"{2**60 + at}"}}' for at in range(5)] + ["[]", "no JSON", "{\r}"]
    page = Page(port)
    page.feed(*lines[:3], "", *lines[3:])
    whole = [line.replace("\r", " ") for line in lines]
    found = events(asked(port, "GET /lines HTTP/1.1"), 60,
                   lambda found: sum(not name for _, name, _ in found) == len(lines) and found[-1][1])
    check("the lines are handed on as they came", [data for _, name, data in found if not name] == whole)
    status_event = found[-1]
    check("and then how old the last one is", status_event[1] == "page" and "age" in json.loads(status_event[2]))
    own = f"Host: 127.0.0.1:{port}"
    conn = asked(port, "GET /lines HTTP/1.1", [own, f"Last-Event-ID: {found[2][0]}"])
    rest = events(conn, 60, lambda found: len(found) > len(lines) - 3)
    check("a page goes on after the last line that it has", [data for _, name, data in rest if not name] == whole[3:])
    for wrong in ("other-3", "x", f"{found[0][0].split('-')[0]}-999999", f"{found[0][0].split('-')[0]}--1"):
        told = events(asked(port, "GET /lines HTTP/1.1", [own, f"Last-Event-ID: {wrong}"]), 60, bool)
        check(f"an id as {wrong.partition('-')[2] or wrong} does no harm", len(told) == 1)
    page.close()
    told = events(asked(port, "GET /lines HTTP/1.1"), 60, lambda found: found and '"ended": true' in found[-1][2])
    check("the end of the lines is told", told[-1][1] == "page" and json.loads(told[-1][2])["ended"] is True)
    page.end()


def replayed(check, _, port):
    """Saved lines come at the pace of their readings; a watch that begins anew isn't waited for. Where this program
    was late for the first of them it is tried again."""
    lines = [f'{{"event":"visit","number":1,"reading":"{2**60}"}}', f'{{"event":"slept","reading":"{2**60 + 10**9}"}}',
             '{"event":"visit","number":1,"reading":"5"}', '{"event":"slept","reading":"500000005"}']
    with tempfile.NamedTemporaryFile("w", suffix=".lines") as file:
        file.write("\n".join(lines))
        file.flush()
        page = Page(port, ["--replay", file.name, "--local-error", "5", "--local-precision", "0",
                           "--selector", 'urn:"x"&1'])
        conn, times = asked(port, "GET /lines HTTP/1.1"), []
        told = events(conn, 60, lambda found: times.append((time.monotonic(), len(found))) or (
            found and '"ended": true' in found[-1][2]))
    came = [min(at for at, count in times if count > each) for each in range(len(told) - 1)]
    lasted = came[-1] - came[0] if came else 0
    check("saved lines come at their pace", [data for _, name, data in told if not name] == lines and lasted > 1.2,
          f"{lasted:.1f} s")
    words = all_of(asked(port, "GET / HTTP/1.1"))
    check("the page knows the local error and precision", b'data-local-error="5" data-local-precision="0"' in words)
    check("and the selector", b'data-selector="urn:&quot;x&quot;&amp;1"' in words)
    page.end()


def too_long(check, port):
    page = Page(port)
    page.feed("x" * 3_000_000, "{}")
    told = events(asked(port, "GET /lines HTTP/1.1"), 60, lambda found: len(found) > 1)
    check("a line that is too long is counted alone", told[0][2] == "{}" and json.loads(told[1][2])["long"] == 1)
    page.end()


def unread(check, port):
    """Pages that don't read hold nothing up. They are dropped; others go on."""
    page = Page(port)
    line = '{"event":"slept","reading":"%d","words":"' + "x" * 400 + '"}'
    page.feed(line % 1)
    deaf = [asked(port, "GET /lines HTTP/1.1", room=4096) for _ in range(5)]
    time.sleep(0.3)
    begun = time.monotonic()
    for at in range(60):
        page.feed(*(line % (1000 * at + each) for each in range(1000)))
    took = time.monotonic() - begun
    check("60,000 lines are read while five pages don't read", took < 60, f"{took:.1f} s")
    last = line % 59999
    time.sleep(1)  # For what still stands in the pipe.
    told = events(asked(port, "GET /lines HTTP/1.1"), 60, lambda found: found and found[-1][2] == last)
    told = [data for _, name, data in told if not name]
    check("another page gets the last lines", len(told) > 10000 and told[-1] == last, len(told))
    time.sleep(12)  # Well over the patience that it has with them.
    ended = [all_of(conn)[-100:] for conn in deaf]
    check("the pages that don't read are dropped", all(not data.endswith(last.encode() + b"\n\n") for data in ended))
    page.end()


def starts(check, port):
    """How it starts, and how it doesn't."""
    page = Page(port)
    check("it says where the page is", page.said == f"page.py: http://127.0.0.1:{port}/\n", page.said.strip())
    second = subprocess.run([sys.executable, str(TOOL), "--port", str(port)], stdin=subprocess.DEVNULL,
                            capture_output=True, check=False, timeout=60)
    check("a port in use is told, with status 1", second.returncode == 1 and b"in use" in second.stderr)
    page.end()
    for words in (["--port", "80"], ["--fast"], ["--local-error", "-1"], ["--name", "News"], ["--name", "=News"],
                  ["more"]):
        told = subprocess.run([sys.executable, str(TOOL), *words], stdin=subprocess.DEVNULL, capture_output=True,
                              check=False, timeout=60)
        check(f"{' '.join(words)} is refused", told.returncode == 2, told.returncode)


def serving(check, port):
    """All of these checks."""
    starts(check, port)
    installed(check, port)
    page = Page(port)
    refusals(check, port)
    other_sites(check, port)
    heads(check, port)
    page.end()
    network(check, port)
    byte_by_byte(check, port)
    handed_on(check, port)
    patiently(check, replayed, port)
    too_long(check, port)
    unread(check, port)
