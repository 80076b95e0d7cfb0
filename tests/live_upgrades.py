"""Handshakes of WebSocket sessions as other programs write them, and the answers to requests that are none."""
import base64, os, threading, time

from live_edge import (PATIENCE, UPGRADED, Beside, Listener, companion, dial_soon, end_of, greet, patiently,
                       processor_times, slower, stop, upgraded)
from live_peer import Peer, accept_key, connection, start
from live_words import is_hint

KEPT = ("Upgrade: websocket", "Connection: keep-alive, Upgrade")
TWO_LINES = ("Upgrade: websocket", "Connection: keep-alive", "Connection: upgrade")
BINARY = 2


def head_of(port, lines=UPGRADED, path="/cii", first=None, version="13", key=None):
    """A request for a session."""
    key = base64.b64encode(os.urandom(16)).decode() if key is None else key
    told = [first or f"GET {path} HTTP/1.1", f"Host: 127.0.0.1:{port}", *lines]
    told += [f"Sec-WebSocket-Key: {key}"] if key else []
    told += [f"Sec-WebSocket-Version: {version}"] if version else []
    return "\r\n".join(told + ["", ""]).encode()


# ---- at a television

def is_session(conn, head, seconds=PATIENCE):
    """Whether a request is answered by a session, which then tells a text."""
    peer = Peer(conn, True)
    answer = peer.head(seconds)
    key = [line.split(b": ")[1] for line in head.split(b"\r\n") if line.startswith(b"Sec-WebSocket-Key")][0]
    return answer.startswith(b"HTTP/1.1 101") and accept_key(key) in answer and "contentId" in peer.text(seconds)


def opens(check, name, port, lines):
    """A request with these lines makes a session."""
    try:
        head = head_of(port, lines)
        conn = connection(port)
        conn.sendall(head)
        check(name, is_session(conn, head))
    except (EOFError, OSError) as error:
        check(name, False, repr(error))


def answer_to(port, sent):
    """What the peer is told on a connection until it ends, and how that ends."""
    conn, told = connection(port), b""
    try:
        try:
            conn.sendall(sent)
        except OSError:
            pass  # It may be answered before all of it was sent.
        while True:
            more = conn.recv(65536)
            if not more:
                return told, "in order"
            told += more
    except TimeoutError:
        return told, "not at all"
    except OSError:
        return told, "by a reset"


def refused(check, name, port, sent, statuses, line=b""):
    """A request is refused by one of these statuses, which reaches the peer; the answer has this line. What was sent is
    read past for a second. Where this machine was busy for that long the connection is reset, so it is tried again."""
    told, how = answer_to(port, sent)
    for _ in range(4):
        if how != "in order":
            told, how = answer_to(port, sent)
    words = told.split(b" ", 2)
    holds = told.startswith(b"HTTP/1.1 ") and words[1].decode() in statuses and line in told.lower()
    check(f"{name} is answered with {' or '.join(statuses)}", holds and how == "in order",
          (told.split(b"\r\n")[0].decode(errors="replace")[:60], how))


def one_by_one(conn, data):
    """Sends bytes one by one, every 5 ms. Where this machine is late it catches up: a handshake has 5 seconds."""
    begun = time.monotonic()
    for at, byte in enumerate(data):
        time.sleep(max(0, begun + 0.005 * at - time.monotonic()))
        conn.sendall(bytes([byte]))


def slowly(check, _, port):
    """A head of about 400 bytes comes byte by byte."""
    head = head_of(port, (*UPGRADED, "User-Agent: " + "a" * 200))
    try:
        conn = connection(port)
        one_by_one(conn, head)
        check("a head that comes byte by byte makes a session", is_session(conn, head))
    except (EOFError, OSError) as error:
        check("a head that comes byte by byte makes a session", False, repr(error))


def dripping(port, seconds, ends):
    """Sixteen peers that send long heads in small pieces all the time, each in the place of one that was dropped."""
    end, drip, conns = time.monotonic() + seconds, b"a" * 130, [None] * 16
    while time.monotonic() < end and not ends.is_set():
        for at, conn in enumerate(conns):
            try:
                if conn is None:
                    conns[at] = connection(port)
                    conns[at].sendall(b"GET /cii HTTP/1.1\r\nX: ")
                else:
                    conn.send(drip)
            except OSError:
                conns[at] = None
        time.sleep(0.003)


def beside_dripping(check, _, port, process):
    """While sixteen peers drip, another has its session within a second, in which the television isn't kept waiting for
    a processor."""
    ends = threading.Event()
    thread = threading.Thread(target=dripping, args=(port, 20, ends))
    thread.start()
    time.sleep(0.1)
    begun, before = time.monotonic(), processor_times(process)[1]
    try:
        head = head_of(port)
        conn = connection(port)
        conn.sendall(head)
        served = is_session(conn, head) and thread.is_alive()
    except (EOFError, OSError):
        served = False
    took = time.monotonic() - begun - processor_times(process)[1] + before
    ends.set()
    thread.join()
    check("a peer beside 16 that drip has its session within a second", served and took < 4, f"{took:.2f} s")


def binary(check, port, path):
    peer = dial_soon(port, path)
    peer.say(b"\1\2\3", BINARY)
    codes, _, how = end_of(peer)
    check(f"a binary message on {path} is closed with 1003", codes == [1003], (codes, how))


def at_television(port, program, check):
    child = start(program, ["tv", "--port", str(port), "--seconds", "3600"], "0 programme dvb://1\n0 change 1\n")
    dial_soon(port, "/cii").conn.close()
    long_head = head_of(port)[:-2] + b"X: " + b"a" * 80_000
    early = "a request that goes on after its head"
    host, key = f"Host: 127.0.0.1:{port}", "Sec-WebSocket-Key: " + base64.b64encode(bytes(16)).decode()
    Beside([
        (opens, "a list of tokens in Connection makes a session", port, KEPT),
        (opens, "a Connection of two lines makes a session", port, TWO_LINES),
        (refused, "a request without a key", port, head_of(port, key=""), ["400"]),
        (refused, "a request with a bad key", port, head_of(port, key="abc"), ["400"]),
        (refused, "a request with two keys", port, head_of(port, (*UPGRADED, key)), ["400"]),
        (refused, "a request without a host", port, head_of(port).replace(host.encode() + b"\r\n", b""), ["400"]),
        (refused, "a request with two hosts", port, head_of(port, (*UPGRADED, host)), ["400"]),
        (refused, "what is no request", port, b"\1\2\3 hello\r\n\r\n", ["400"]),
        (refused, "a request for another path", port, head_of(port, path="/other"), ["404"]),
        (refused, early, port, head_of(port, path="/other") + b"a" * 200_000, ["404"]),
        (refused, "a request by another method", port, head_of(port, first="POST /cii HTTP/1.1"), ["405"]),
        (refused, "a request of another version", port, head_of(port, version="8"), ["426"],
         b"\r\nsec-websocket-version: 13\r\n"),
        (refused, "a request for a page", port, head_of(port, ("Accept: text/html",), key="", version=""),
         ["400", "426"]),
        (refused, "a head that is too long", port, long_head + b"\r\n\r\n", ["431"]),
        (refused, "a head that is too long and has no end", port, long_head, ["431"]),
        (refused, "a head of a thousand lines", port, head_of(port)[:-2] + b"X: a\r\n" * 1000 + b"\r\n",
         ["400", "431"]),
        (patiently, slowly, port),
        (binary, port, "/cii"),
        (binary, port + 1, "/ts"),
    ]).tell(check)
    patiently(check, beside_dripping, port, child.pid)
    check("the television goes on", child.poll() is None)
    stop(child)


# ---- at a companion

def told_of(program, serve):
    """A companion dials a server, which notes what it sees in this record."""
    seen, done = {}, threading.Event()

    def handed(peer):
        if not done.is_set():
            try:
                serve(peer, seen)
            except (EOFError, OSError) as error:
                seen["error"] = repr(error)
            done.set()
    server = Listener(handed)
    child = companion(program, server.port, "--seconds", "3600")
    done.wait(PATIENCE)
    stop(child)
    server.end()
    return seen


def answered_by(check, _, program, name, lines, slow=False):
    """A server's answer with these lines makes a session, on which a ping is answered."""
    def serve(peer, seen):
        answer = upgraded(peer.head(), lines)
        if slow:
            one_by_one(peer.conn, answer)
        else:
            peer.conn.sendall(answer)
        seen["holds"] = peer.answers(b"there?")
    seen = told_of(program, serve)
    check(name, seen.get("holds", False), seen.get("error", ""))


def wrongly_answered(check, times, program, name, told, instead, words):
    """A server's answer of status 101 has something else in the place of what makes a session. What was wrong stands in
    the log and in the hint."""
    server = Listener(lambda peer: peer.conn.sendall(upgraded(peer.head()).replace(told, instead)))
    lasting = slower(["--seconds", "5", "--report-every", "1000000000"], times)
    child = companion(["env", "CSS_LOG=1", *program], server.port, *lasting)
    log = child.stderr.read().decode().splitlines()
    status = child.wait(PATIENCE)
    stop(child)
    server.end()
    dials = [line for line in log if line.startswith("css: log: CII dialled ")]
    check(f"{name} is told as that in the log", any(line.endswith(words) for line in dials), dials[:2])
    hints = [line for line in log if is_hint(line)]
    check(f"{name} is told as that in the hint", status == 10 and len(hints) == 1 and hints[0].endswith(words), hints)


def origin(check, program):
    def serve(peer, seen):
        seen["head"] = greet(peer)
    head = told_of(program, serve).get("head", b"")
    lines = [line for line in head.split(b"\r\n") if line.lower().startswith(b"origin:")]
    check("a companion tells its Origin", len(lines) == 1 and lines[0].split(b":", 1)[1].strip() != b"", lines)


def binary_to(check, program):
    def serve(peer, seen):
        greet(peer)
        peer.say(b"\1\2\3", BINARY)
        seen["end"] = end_of(peer)
    seen = told_of(program, serve)
    check("a companion closes a binary message with 1003", seen.get("end", ([],))[0] == [1003], seen)


def at_companion(program, check):
    Beside([
        (answered_by, 1, program, "a companion takes a list of tokens in Connection", KEPT),
        (answered_by, 1, program, "a companion takes a Connection of two lines", TWO_LINES),
        (patiently, answered_by, program, "a companion takes an answer that comes byte by byte",
         (*UPGRADED, "Server: " + "a" * 200), True),
        *[(patiently, wrongly_answered, program, *wrong) for wrong in [
            ("a wrong accept", b"Accept: ", b"Accept: x", "its Sec-WebSocket-Accept is wrong"),
            ("a Connection without Upgrade", b"Connection: Upgrade", b"Connection: close",
             "its Connection lacks Upgrade"),
            ("an Upgrade to something else", b"websocket", b"h2c", "its Upgrade isn't websocket"),
            ("an extension", b"Connection", b"Sec-WebSocket-Extensions: a\r\nConnection",
             "an extension that nobody asked for"),
            ("a subprotocol", b"Connection", b"Sec-WebSocket-Protocol: a\r\nConnection",
             "a subprotocol that nobody asked for"),
            ("another version of HTTP", b"HTTP/1.1", b"HTTP/1.0", "not of HTTP/1.1"),
        ]],
        (origin, program),
        (binary_to, program),
    ]).tell(check)


def upgrades(port, program, check):
    at_television(port, program, check)
    at_companion(program, check)
