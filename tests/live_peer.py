"""A plain peer of `css` on real sockets: sessions that it dials, requests of the wall clock, and the start of the
program. tests/live.py and bench/live.py are made of it."""
import atexit, base64, os, pathlib, socket, subprocess, sys, time

sys.path.insert(0, str(pathlib.Path(__file__).resolve().parent.parent / "tools"))
from peer import CLOSE, PATIENCE, PING, PONG, TEXT, TIMELINE, Peer, accept_key, frame, nanos, stamp  # noqa: E402, F401

SETUP = {"contentIdStem": "dvb://", "timelineSelector": TIMELINE}


def connection(port, room=None, host="127.0.0.1"):
    """A connection, which takes only so many unread bytes where room is given."""
    conn = socket.socket(socket.AF_INET6 if ":" in host else socket.AF_INET, socket.SOCK_STREAM)
    if room is not None:
        conn.setsockopt(socket.SOL_SOCKET, socket.SO_RCVBUF, room)
        conn.setsockopt(socket.IPPROTO_TCP, socket.TCP_MAXSEG, 536)  # The other end keeps less, too.
    conn.settimeout(PATIENCE)
    conn.connect((host, port))
    conn.setsockopt(socket.IPPROTO_TCP, socket.TCP_NODELAY, 1)
    return conn


def upgrade_head(port, path, key):
    return (f"GET {path} HTTP/1.1\r\nHost: 127.0.0.1:{port}\r\nUpgrade: websocket\r\nConnection: Upgrade\r\n"
            f"Sec-WebSocket-Key: {key.decode()}\r\nSec-WebSocket-Version: 13\r\n\r\n").encode()


def dial(port, path, room=None, host="127.0.0.1"):
    """A session that this program dials."""
    peer = Peer(connection(port, room, host), True)
    key = base64.b64encode(os.urandom(16))
    peer.conn.sendall(upgrade_head(port, path, key))
    head = peer.head()
    if not head.startswith(b"HTTP/1.1 101") or accept_key(key) not in head:
        raise ConnectionError(head.split(b"\r\n")[0].decode())
    return peer


def set_up(port, setup=SETUP):
    """A session of CSS-TS with its first control timestamp."""
    peer = dial(port + 1, "/ts")
    peer.say(setup)
    return peer, peer.text()


def serves(port):
    """Whether a new session of CSS-CII is told a state."""
    try:
        return "wcUrl" in dial(port, "/cii").text()
    except (EOFError, OSError):
        return False


def sets_up(port):
    """Whether a new session of CSS-TS is told a control timestamp."""
    try:
        return "contentTime" in set_up(port)[1]
    except (EOFError, OSError):
        return False


def request(now):
    return bytes(8) + stamp(now) + bytes(16)


STARTED = []


@atexit.register
def end_started():
    """Ends the runs that still go on, such as those of a check that didn't go through."""
    for child in STARTED:
        if child.poll() is None:
            child.kill()


def start(program, words, given=""):
    """A run of the program with these words and this standard input."""
    child = subprocess.Popen(program + words, stdin=subprocess.PIPE, stdout=subprocess.PIPE, stderr=subprocess.PIPE)
    STARTED.append(child)
    try:
        child.stdin.write(given.encode())
        child.stdin.close()
    except BrokenPipeError:
        pass  # It has ended already, as with refused words.
    return child


def television(program, port, script, words=()):
    """A television that answers by now, and goes on for an hour."""
    child = start(program, ["tv", "--port", str(port), "--seconds", "3600", *words], script)
    end = time.monotonic() + 60
    while time.monotonic() < end:
        try:
            dial(port, "/cii").text()
            return child
        except (OSError, EOFError):
            time.sleep(0.05)
    raise SystemExit("the television doesn't answer")
