"""WebSocket by hand, on real sockets: one end of a session, frames, handshakes, and a server that takes connections.
And the times of CSS-WC as bytes. tools/wrong_tv.py and the scripts in tests/ are made of it."""
import base64
import hashlib
import json
import os
import select
import socket
import struct
import threading
import time

TEXT, CLOSE, PING, PONG = 1, 8, 9, 10
TIMELINE = "urn:dvb:css:timeline:pts"
PATIENCE = 30  # Only what hangs takes so many seconds, also on a busy machine.
POLL = 0.1  # So often what waits notes that nothing came.
ANSWERED = 0.8  # Within so many seconds no program cuts off a peer whose answer to a close it still waits for.
LATE = "late"
UPGRADED = ("Upgrade: websocket", "Connection: Upgrade")
FAULTS = (EOFError, OSError, ValueError, IndexError)


def accept_key(key):
    return base64.b64encode(hashlib.sha1(key + b"258EAFA5-E914-47DA-95CA-C5AB0DC85B11").digest())


def masked_by(mask, payload):
    """A payload with its mask put on, or taken off."""
    length = len(payload)
    whole = int.from_bytes((mask * (length // 4 + 1))[:length], "big") ^ int.from_bytes(payload, "big")
    return whole.to_bytes(length, "big")


def frame(opcode, payload, fin=True, masked=True):
    """One frame as bytes."""
    length = len(payload)
    mark = 0x80 if masked else 0
    head = bytes([(0x80 if fin else 0) | opcode])
    if length < 126:
        head += bytes([mark | length])
    elif length < 65536:
        head += struct.pack(">BH", mark | 126, length)
    else:
        head += struct.pack(">BQ", mark | 127, length)
    if not masked:
        return head + payload
    mask = os.urandom(4)
    return head + mask + masked_by(mask, payload)


class Peer:
    """One end of a WebSocket over a connected socket."""

    def __init__(self, conn, masked):
        self.conn, self.masked, self.bytes = conn, masked, b""
        # When nothing was left to be read; and `came` says that of what was read last: it came later.
        self.quiet = self.came = time.monotonic()

    def take(self, count, seconds):
        end = time.monotonic() + seconds
        while len(self.bytes) < count:
            now = time.monotonic()
            if select.select([self.conn], [], [], min(POLL, max(0, end - now)))[0]:
                self.read(now)
                continue
            self.quiet = now
            if now >= end:
                raise TimeoutError
        taken, self.bytes = self.bytes[:count], self.bytes[count:]
        return taken

    def read(self, now):
        """Reads what has come by now."""
        more = self.conn.recv(65536)
        if not more:
            raise EOFError
        self.bytes, self.came = self.bytes + more, self.quiet
        if len(more) < 65536:
            self.quiet = now

    def head(self, seconds=PATIENCE):
        """An HTTP head."""
        head = b""
        while not head.endswith(b"\r\n\r\n"):
            head += self.take(1, seconds)
        return head

    def say(self, payload, opcode=TEXT, fin=True):
        data = payload if isinstance(payload, bytes) else json.dumps(payload).encode()
        self.conn.sendall(frame(opcode, data, fin, self.masked))

    def hear(self, seconds=PATIENCE):
        """The next frame: its opcode and its payload. A client's frames are masked, a server's aren't."""
        first, second = self.take(2, seconds)
        length = second & 0x7F
        if length == 126:
            length = struct.unpack(">H", self.take(2, seconds))[0]
        elif length == 127:
            length = struct.unpack(">Q", self.take(8, seconds))[0]
        if bool(second & 0x80) == self.masked or not first & 0x80:
            raise ValueError("a frame is masked where it must not be, or isn't where it must, or is a fragment")
        if not second & 0x80:
            return first & 15, self.take(length, seconds)
        mask = self.take(4, seconds)
        return first & 15, masked_by(mask, self.take(length, seconds))

    def text(self, seconds=PATIENCE):
        """The next text as a value; what else comes is passed over."""
        while True:
            opcode, payload = self.hear(seconds)
            if opcode == TEXT:
                return json.loads(payload)
            if opcode == CLOSE:
                raise EOFError

    def answers(self, payload):
        """Whether a ping is answered by its own pong, and nothing comes before that but pings: a session on which
        nothing was said for long is asked whether its peer is there."""
        try:
            self.say(payload, PING)
            while (heard := self.hear())[0] == PING:
                self.say(heard[1], PONG)
            return heard == (PONG, payload)
        except (EOFError, OSError):
            return False

    def told(self, seconds=PATIENCE):
        """The next text; an empty one where none comes, or the session ends first."""
        try:
            return self.text(seconds)
        except (EOFError, OSError):
            return {}

    def ending(self, seconds=PATIENCE):
        """How the session ends: the code of the close frame, None where the connection ends without one."""
        try:
            while True:
                opcode, payload = self.hear(seconds)
                if opcode == CLOSE:
                    return struct.unpack(">H", payload[:2])[0] if payload else 1005
        except (EOFError, ConnectionError):
            return None
        except TimeoutError:
            return "nothing"

    def has_ended(self, seconds=PATIENCE):
        """Whether the connection ends; what comes before is passed over."""
        try:
            while True:
                self.take(1, seconds)
        except (EOFError, ConnectionError):
            return True
        except TimeoutError:
            return False


def stamp(nanos):
    return struct.pack(">II", *divmod(nanos, 1_000_000_000))


def nanos(bytes8):
    seconds, rest = struct.unpack(">II", bytes8)
    return seconds * 1_000_000_000 + rest


class Listener:
    """Takes connections, notes when each came, and hands it to a function in a thread of its own. On a busy machine it
    takes one late, so it is noted too when it hadn't come."""

    def __init__(self, serve, port=0, host="127.0.0.1"):
        family = socket.AF_INET6 if ":" in host else socket.AF_INET
        self.socket = socket.socket(family, socket.SOCK_STREAM)
        self.socket.setsockopt(socket.SOL_SOCKET, socket.SO_REUSEADDR, 1)
        self.socket.bind((host, port))
        self.socket.listen(64)
        self.port, self.times, self.serve = self.socket.getsockname()[1], [], serve
        self.before = []  # When each of them hadn't come.
        self.thread = threading.Thread(target=self.take, daemon=True)
        self.thread.start()

    def take(self):
        quiet = time.monotonic()
        while True:
            now = time.monotonic()
            try:
                if not select.select([self.socket], [], [], POLL)[0]:
                    quiet = now
                    continue
                conn, _ = self.socket.accept()
            except OSError:
                return
            self.before.append(quiet)
            self.times.append(time.monotonic())
            conn.setsockopt(socket.IPPROTO_TCP, socket.TCP_NODELAY, 1)
            threading.Thread(target=self.hand, args=(conn,), daemon=True).start()

    def hand(self, conn):
        try:
            self.serve(Peer(conn, False))
        except FAULTS:
            pass

    def end(self):
        """Ends it for good. One that still waited might take a connection of the next one, whose socket may have the
        same number."""
        try:
            self.socket.shutdown(socket.SHUT_RDWR)
        except OSError:
            pass
        self.thread.join()
        self.socket.close()


def upgraded(head, lines=UPGRADED):
    """The answer that makes a session of this head."""
    keys = [line.split(b":", 1)[1].strip() for line in head.split(b"\r\n")
            if line.lower().startswith(b"sec-websocket-key:")]
    told = "\r\n".join(["HTTP/1.1 101 Switching Protocols", *lines, "Sec-WebSocket-Accept: "])
    return told.encode() + accept_key(keys[0]) + b"\r\n\r\n"


def greet(peer, lines=UPGRADED):
    """Makes a session of a connection. Its head."""
    head = peer.head()
    peer.conn.sendall(upgraded(head, lines))
    return head


def state(clock=None, timestamps=None):
    """A state with a wall clock and timestamps at these ports of this machine."""
    return {"protocolVersion": "1.1", "contentId": "dvb://1.2.3", "contentIdStatus": "final",
            "presentationStatus": "okay", "mrsUrl": None, "teUrl": None,
            "wcUrl": f"udp://127.0.0.1:{clock}" if clock else None,
            "tsUrl": f"ws://127.0.0.1:{timestamps}/ts" if timestamps else None,
            "timelines": [{"timelineSelector": TIMELINE,
                           "timelineProperties": {"unitsPerTick": 1, "unitsPerSecond": 90000}}]}


def end_of(peer, seconds=PATIENCE, over=None):
    """How a connection ends: the codes of the close frames on it and how many texts came before, and whether it was
    ended in order, by a reset, or not at all. A ping is answered, and so is a close; `over` is set before.

    Whoever closes waits a second for that answer and then may cut the connection, though the peer has all that it was
    told. A reset so long after the close is told as late: one of both ends was kept from doing its part."""
    codes, texts, closed = [], 0, None
    try:
        while True:
            opcode, payload = peer.hear(seconds)
            texts += opcode == TEXT
            if opcode == PING:
                peer.say(payload, PONG)
            if opcode == CLOSE:
                codes.append(struct.unpack(">H", payload[:2])[0] if payload else 1005)
                closed = closed or peer.came
                if over:
                    over.set()
                peer.say(payload, CLOSE)
                peer.conn.shutdown(socket.SHUT_WR)
    except EOFError:
        return codes, texts, "in order"
    except TimeoutError:
        return codes, texts, "not at all"
    except OSError:
        return codes, texts, LATE if closed and time.monotonic() > closed + ANSWERED else "by a reset"
