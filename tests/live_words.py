"""Each status that the program can end with: its status line, which stays as it is, and the hint that may follow. The
hints of words that are those of no command stand in words.py."""
import os, re, subprocess, threading

from live_edge import (Clock, Listener, closed_port, dial_soon, greet, hold, patiently, reset, slower, state, stop,
                       teller)
from live_peer import start

HINT = "css: hint: "
SCHEDULE = "css-schedule 1 plain 0 -20 0 0 urn:dvb:css:timeline:pts -\n"


def is_hint(line):
    """Whether a line is a hint: printable ASCII, and at most 200 bytes with its line feed."""
    return line.startswith(HINT) and len(line) < 200 and re.fullmatch("[ -~]*", line) is not None


def told_by(child):
    """How a run ended, and its lines on standard error, notes of the sockets aside."""
    status = child.wait(60)
    lines = child.stderr.read().decode().split("\n")
    return status, [line for line in lines[:-1] if not line.startswith("css: log: ")], lines[-1]


def check_end(check, name, child, status, line, hint):
    """A run ends so: with this status, this line, or one that begins so, and a hint that says this."""
    got, lines, rest = told_by(child)
    first = lines[0] if lines else ""
    right = first.startswith(line) if line.endswith(" ") else first == line
    check(f"{name}: status {status}, {line}", right and (got, rest) == (status, ""), (got, lines))
    hints = lines[1:]
    right = len(hints) < 2 and all(is_hint(it) for it in hints) and (hint is None or re.search(hint, " ".join(hints)))
    check(f"{name}: its hint", bool(right), hints)


# The line that is refused behind a schedule's header, why, and what the hint says of it.
LINES = [
    ("5 5 5 nothing", "form", "word 4 may be ask, .*, and is nothing"),
    ("5 5 5 ask", "form", "word 5 is missing; it may be a number from 0 to 4294967295999999999"),
    ("5 5 5  ask 5", "form", "word 4 is empty"),
    ("5 5 05 ask 5", "form", "word 3 may be a number from 0 to .*, and is 05"),
    ("5 5 5 ask 5 5", "form", "the line ends before word 6, which is 5"),
    ("5 5 5 take 0 5", "form", "word 5 may be a number from 1 to 4294967295, and is 0"),
    ("5 5 5 programme \x7f", "form", "word 5 may be a word of printable ASCII"),
    ("5 5 5 timeline 1 a 0 1 0", "form", "word 7 may be a number from 1 to 1000000000, and is 0"),
    ("5 5 5 speed 5 1000", "form", "word 6 may be a number from -999 to 999, and is 1000"),
    ("5 5 5 open wc", "form", "word 5 may be cii or ts, and is wc"),
    ("5 5 5 up cii", "form", "word 5 may be ts, and is cii"),
    ("5 5 5 present 1 x 1 1", "form", "word 6 may be .* or minusinfinity, and is x"),
    ("5 5 5 take 7 5", "absent", "request 7 wasn't sent"),
    ("5 5 5 give 7 5", "absent", "take 7 wasn't made"),
    ("5 5 5 land 7 5", "absent", "datagram 7 wasn't made"),
    ("5 5 5 text ts", "absent", "session ts isn't open"),
    ("5 5 5 up ts", "absent", "session ts isn't open"),
    ("5 5 5 present 1 1 1 1", "absent", "session ts isn't open"),
    ("5 5 5 close cii", "absent", "session cii isn't open"),
    ("5 5 5 open ts\n5 5 5 open ts", "absent", "session ts is open, or was before"),
    ("5 5 5 change 5 1", "no programme", "no programme of this number"),
    ("5 5 5 programme a\n5 5 5 change 5 1\n5 5 5 speed 5 65", "speed", "from -64 to 64"),
    ("5 5 5 programme a\n5 5 5 timeline 1 a 1 1 100000000000000001", "range", "10.17"),
    ("\n".join(["5 5 5 programme a"] * 1001), "full", "1,000 programmes"),
]

# A command, its input, the line that is refused, and what the hint says of it.
INPUTS = [
    ("replay", "css-schedule 9 plain 0 -20 0 0 a -\n", 1, "word 2 may be 1 or 2, and is 9"),
    ("replay", "css-schedule 1 plan 0 -20 0 0 a -\n", 1, "word 3 may be follow or plain, and is plan"),
    ("replay", "css-schedule 2 plain 0 -20 17\n", 1, "word 6 may be a number from 1 to 16, and is 17"),
    ("replay", "css-schedule 2 plain 0 -20 2\n", 2, "line 2 has to be: companion 1 EL PL SELECTOR STEM"),
    ("replay", "css-schedule 2 plain 0 -20 2\ncompanion 1 0 0 a -\n0 0\n", 3, "line 3 has to be: companion 2"),
    ("replay", "css-schedule 2 plain 0 -20 1\ncompanion 1 0 x a -\n", 2, "word 4 may be a number .*, and is x"),
    ("replay", "css-schedule 2 plain 0 -20 1\ncompanion 1 0 0 a -\n5 5 1 5 ask x\n", 3, "word 6 may be .*, and is x"),
    ("replay", SCHEDULE[:-1] + "\r\n", 1, "carriage return"),
    ("replay", SCHEDULE[:-1] + "\r", 1, "carriage return"),
    ("migrate", "css-schedule 2 plain 0 -20 1\n", 1, "word 2 may be 1, and is 2"),
    ("migrate", SCHEDULE + "5 5 5 sleep\n", 2, "word 4 may be ask, .*, and is sleep"),
    ("agree", "css-agree 1 0 x\n", 1, "word 4 may be a number from 0 to 1000000000, and is x"),
    ("agree", "css-agree 1 0 0\nanswer 1 2 3 4 31 0\n", 2, "word 6 may be a number from -128 to 30, and is 31"),
    ("audit", "css-record 1 0 0 a\n", 1, "word 6 is missing; it may be a word"),
    ("audit", "css-record 1 0 0 a -\nland 5 abc\n", 2, "word 3 may be hex digits .*, and is abc"),
    ("audit", "css-record 1 0 0 a -\nheard 5\n", 2, "word 1 may be slept, .* or report, and is heard"),
    ("audit", "css-record 1 0 0 a -\nreport \x7f\n", 2, "a line is slept, .*, or a report"),
    ("audit", "css-record 1 0 0 a -\nreport\n", 2, "word 2 is missing"),
    ("tv", "0 programme\n", 1, "word 3 is missing; it may be a word"),
    ("tv", "0 programme a\r\n", 1, "carriage return"),
    ("tv", "0 open cii\n", 1, "word 2 may be programme, .* or seek, and is open"),
]


def refused_lines(check, program):
    """Lines that are refused, and the first word of each that can't stand there."""
    for text, why, hint in LINES:
        number = 2 + text.count("\n")
        check_end(check, f"a line: {text[-40:]!r}", start(program, ["replay"], SCHEDULE + text + "\n"), 2,
                  f"css: line {number}: {why}", hint)
    for command, given, number, hint in INPUTS:
        check_end(check, f"{command}: {given[-40:]!r}", start(program, [command], given), 2,
                  f"css: line {number}: form", hint)
    for text, hint in (("cue 5 one\nnothing\n", "word 1 may be cue or meter, and is nothing"),
                       ("cue 5 one\nmeter 0\n", "word 2 may be a number from 1 to 1000000, and is 0"),
                       ("meter 5\nmeter 5\n", "at most one"), ("cue 5 one\r\ncue\n", "carriage return")):
        number = 1 if "\r" in text else 2
        check_end(check, f"a cue sheet: {text!r}", start(program, ["companion", "--cii", "ws://127.0.0.1:9/cii"], text),
                  12, f"css: sheet line {number}", hint)
    # A line far behind the first is still known, and one that went by long before isn't.
    far = SCHEDULE + "5 5 5 ask 5\n" * 5000 + "5 5 5 ask x\n"
    check_end(check, "a line far behind", start(program, ["replay"], far), 2, "css: line 5002: form", "and is x")
    check_end(check, "a line long before", start(program, ["pair"], "0 programme\n" + "0 programme a\n" * 5000), 2,
              "css: line 1: form", "a line is W VERB ..")
    check_end(check, "a report behind no turn", start(program, ["audit"], "css-record 1 0 0 a -\nreport 1 ticks 1 2\n"),
              2, "css: line 2: absent", "directly after a turn")


def offline(check, program):
    """Inputs that are too long, and streams that fail."""
    check_end(check, "a line that is too long", start(program, ["replay"], "x" * 70_000_000 + "\n"), 2,
              "css: line 1: long", "67,108,864")
    folder = os.open(".", os.O_RDONLY)
    child = subprocess.Popen([*program, "replay"], stdin=folder, stdout=subprocess.PIPE, stderr=subprocess.PIPE)
    os.close(folder)
    check_end(check, "a read that fails", child, 4, "css: read fault", None)
    with open("/dev/full", "wb") as full:
        child = subprocess.Popen([*program, "generate", "--seed", "1", "--lines", "100"], stdin=subprocess.DEVNULL,
                                 stdout=full, stderr=subprocess.PIPE)
    check_end(check, "a write that fails", child, 5, "css: write fault", None)


def sockets(check, program, port):
    """What the system says of sockets."""
    first = start(program, ["tv", "--port", str(port), "--seconds", "120"])
    dial_soon(port, "/cii").conn.close()
    for name, host, hint in (
            ("a port in use", "127.0.0.1", f"port {port} "), ("a foreign host", "192.0.2.1", "machine"),
            ("an unknown host", "no-such-name.invalid", "host"), ("any host", "0.0.0.0", "--host")):
        child = start(program, ["tv", "--host", host, "--port", str(port), "--seconds", "1"])
        check_end(check, name, child, 6, "css: net fault", hint)
    # the child's own lines come first
    got, lines, _ = told_by(start(program, ["pair", "--port", str(port), "--reports", "1", "--seconds", "2"]))
    check("a child that can't listen", got == 11 and lines[0] == "css: net fault"
          and lines[-1] == "css: child status 6", (got, lines))
    stop(first)


def against(check, times, program, name, serve, status, line, hint):
    """How a companion's run ends against a server."""
    server = Listener(serve)
    lasting = slower(["--seconds", "3", "--report-every", "1000000000"], times)
    child = start(program, ["companion", "--cii", f"ws://127.0.0.1:{server.port}/cii", *lasting])
    check_end(check, name, child, status, line, hint)
    server.end()


def faults(check, program):
    """What a companion's television may tell that ends its run."""
    moved = {**state(closed_port()), "wcUrl": "udp://127.0.0.1:9"}
    old = f"udp://127.0.0.1:{closed_port()}"
    # the 60 bytes that are shown end within the letter
    far = {**state(), "wcUrl": f"udp://{'a' * 53}\u00e4\u00e4"}
    for name, texts, status, line, hint in (
            ("a text that is no JSON", [b"<html>\xc3\xa4</html>"], 7, "css: cii text 1: not json",
             re.escape("isn't JSON: <html>??</html>") + "$"),
            ("a text that is no object", [b"[]"], 7, "css: cii text 1: not object", re.escape(": []") + "$"),
            ("a long text", [b'{"wcUrl":5,' + b"x" * 500], 7, "css: cii text 1: not json", ': {"wcUrl":5,x{69}$'),
            ("a text with a wrong property", [b'{"wcUrl":5}'], 7, "css: cii text 1: field wcUrl",
             'wcUrl .*: {"wcUrl":5}$'),
            ("a moved address", [{**state(), "wcUrl": old}, moved], 8, "css: moved wcUrl",
             f"was {old} and is udp://127.0.0.1:9: start the companion again$"),
            ("a moved address of more than ASCII", [{**state(), "wcUrl": old}, far], 8, "css: moved wcUrl",
             f"was {old} and is udp://a{{53}}: start"),
            ("an address that is none", [{**state(), "tsUrl": "nowhere"}], 13, "css: bad url tsUrl",
             "tsUrl is no address of the form ws:.*: nowhere$"),
            ("a wall clock's that is none", [{**state(), "wcUrl": "http://h:1"}], 13, "css: bad url wcUrl",
             "wcUrl is no address of the form udp:.*: http://h:1$")):
        patiently(check, against, program, name, teller(*texts), status, line, hint)


def companions(check, program, port):
    """What a companion's television can do."""
    faults(check, program)
    clock = Clock()
    silent = Listener(lambda peer: (greet(peer), hold(peer)))
    television = start(program, ["tv", "--port", str(port), "--seconds", "600"])
    dial_soon(port, "/cii").conn.close()
    for name, serve, hint in (
            ("no text", lambda peer: (greet(peer), hold(peer)), "the television told no wcUrl"),
            ("no wcUrl", teller(state()), "the television told no wcUrl"),
            ("no response", teller(state(clock.port)), "no response came to [1-9][0-9]* requests"),
            ("no tsUrl", teller(state(port)), "the television told no tsUrl"),
            ("no control timestamp", teller(state(port, silent.port)), "no control timestamp came")):
        patiently(check, against, program, name, serve, 9, "css: spent after ", "before its last report: " + hint)
    television.kill()
    silent.end()
    clock.end()

    def not_found(peer):
        peer.head()
        peer.conn.sendall(b"HTTP/1.1 404 Not Found\r\nContent-Length: 0\r\n\r\n")

    patiently(check, against, program, "a server of something else", not_found, 10, "css: unreachable after ", "404")
    child = start(program, ["companion", "--cii", f"ws://127.0.0.1:{closed_port()}/cii", "--seconds", "2"])
    check_end(check, "nobody listens", child, 10, "css: unreachable after ", "nobody listens")


def relays(check, times, program, port):
    """A relay whose television moves its wall clock goes on, and what it says is for somebody who runs a relay."""
    sessions = []

    def serve(peer):
        sessions.append(peer)
        tell(peer)

    old = f"udp://127.0.0.1:{closed_port()}"
    tell = teller({**state(), "wcUrl": old}, {**state(), "wcUrl": "udp://127.0.0.1:9"})
    server = Listener(serve)
    url = f"ws://127.0.0.1:{server.port}/cii"
    told = told_by(start(program, ["relay", "--cii", url, "--port", str(port), "--seconds", str(5 * times)]))
    check("a relay goes on where its television moves", told == (0, [], "") and len(sessions) > 1,
          (told, len(sessions)))
    server.end()


def records(check, program):
    """A record with a wrong report."""
    given = b"css-record 1 0 0 urn:dvb:css:timeline:pts -\nturn 5\nreport 1 ticks 1 2\n"
    made = subprocess.run([*program, "audit"], input=given, capture_output=True, check=False)
    lines = made.stderr.decode().split("\n")
    check("a wrong report", made.returncode == 15 and lines[0] == "css: line 3: wrong report", (made.returncode, lines))
    check("a wrong report: the right one", len(lines) == 3 and is_hint(lines[1]) and "NoAnswer" in lines[1], lines)


def logged(check, program, port):
    """With CSS_LOG=1 the sockets say what they do, and without it nothing."""
    for asked in ("1", ""):
        child = subprocess.Popen([*program, "tv", "--port", str(port), "--seconds", "1"], stdin=subprocess.DEVNULL,
                                 stdout=subprocess.PIPE, stderr=subprocess.PIPE, env={**os.environ, "CSS_LOG": asked})
        _, told = child.communicate(timeout=60)
        lines = told.decode().splitlines()
        told = any(it.startswith("css: log: ") for it in lines)
        check(f"CSS_LOG={asked}: what the sockets do", bool(asked) == told, lines)


def departures(check, program, port):
    """The log says of a peer that went away without a close that it did, and only of one that broke a rule that."""
    child = start(["env", "CSS_LOG=1", *program], ["tv", "--port", str(port), "--seconds", "3600"])
    late = threading.Timer(60, child.kill)  # Else a line that doesn't come would be waited for.
    late.start()
    for name, leave, words in (
            ("ends its connection", lambda conn: conn.close(), "ended without a close"),
            ("ends it within a frame", lambda conn: (conn.sendall(b"\x81\xfe"), conn.close()), "ended without a close"),
            ("resets it", reset, "ended without a close"),
            ("sends a bad frame", lambda conn: conn.sendall(b"\xf1\x80abcd"), "broke a rule of WebSockets")):
        peer = dial_soon(port, "/cii")
        peer.text(20)
        leave(peer.conn)
        told = next((line.decode() for line in child.stderr if b" closed: " in line), "nothing")
        check(f"the log of a peer that {name}", words in told, told.strip())
    late.cancel()
    stop(child)


def statuses(port, program, check):
    refused_lines(check, program)
    offline(check, program)
    sockets(check, program, port)
    companions(check, program, port + 2)
    patiently(check, relays, program, port + 2)
    records(check, program)
    logged(check, program, port + 4)
    departures(check, program, port + 4)
