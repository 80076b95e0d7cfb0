"""A television of this program's own, for tests/live.py: plain, and bad in several ways."""
import json, os, random, select, socket, struct, threading, time

from live_edge import Beside, closed_port, patiently, slower, wait_for
from live_peer import CLOSE, PING, PONG, TEXT, TIMELINE, Peer, accept_key, stamp, start

OFFSET = 5_000_000_000_000
START = 900_000
FALSE = []  # The intervals that weren't true.


def state_of(port):
    return {"protocolVersion": "1.1", "contentId": "dvb://1.2.3", "contentIdStatus": "final",
            "presentationStatus": "okay", "mrsUrl": None, "teUrl": None, "private": 0.2,
            "wcUrl": f"udp://127.0.0.1:{port}", "tsUrl": f"ws://127.0.0.1:{port + 1}/ts",
            "timelines": [{"timelineSelector": TIMELINE,
                           "timelineProperties": {"unitsPerTick": 1, "unitsPerSecond": 90000, "accuracy": 0.1}}]}


def wall():
    return time.monotonic_ns() + OFFSET


class Server:
    """Serves one companion. `does` names what it does otherwise than a good television."""

    def __init__(self, port, does=""):
        self.port, self.does = port, does
        self.began, self.seen, self.ends = wall(), {}, False
        self.udp = socket.socket(socket.AF_INET, socket.SOCK_DGRAM)
        self.udp.bind(("127.0.0.1", port))
        self.listeners = {"cii": self.listener(port), "ts": self.listener(port + 1)}
        for name, listener in self.listeners.items():
            threading.Thread(target=self.serve, args=(name, listener), daemon=True).start()
        self.clocked = threading.Thread(target=self.clock, daemon=True)
        self.clocked.start()

    @staticmethod
    def listener(port):
        listener = socket.socket(socket.AF_INET, socket.SOCK_STREAM)
        listener.setsockopt(socket.SOL_SOCKET, socket.SO_REUSEADDR, 1)
        listener.bind(("127.0.0.1", port))
        listener.listen(8)
        return listener

    def end(self):
        self.ends = True
        self.clocked.join(1)  # Else the port would stay taken for a while.
        self.udp.close()
        for listener in self.listeners.values():
            listener.shutdown(socket.SHUT_RDWR)  # Else who waits there might take a connection of another one.
            listener.close()

    def clock(self):
        """Answers requests. A lossy one loses every third, repeats every second, and answers some of them later."""
        late, asked = [], 0
        while not self.ends:
            try:
                if not select.select([self.udp], [], [], 0.01)[0]:
                    continue
                data, sender = self.udp.recvfrom(64)
            except (OSError, ValueError):
                return
            asked += 1
            received = wall()
            answer = bytes([0, 1, 0xec, 0]) + struct.pack(">I", 128000) + data[8:16] + stamp(received)
            answer += stamp(wall())
            if self.does != "lossy":
                self.udp.sendto(answer, sender)
                continue
            if asked % 3 == 0:
                continue
            late.append(answer)
            if asked % 4 == 0:
                random.shuffle(late)
                for one in late:
                    self.udp.sendto(one, sender)
                late = []
            if asked % 2 == 0:
                self.udp.sendto(answer, sender)
                self.udp.sendto(answer, sender)
            self.udp.sendto(b"garbage", sender)
            self.udp.sendto(bytes([0, 1, 0xec, 0]) + bytes(28), sender)
        self.seen["asked"] = asked

    def serve(self, name, listener):
        while not self.ends:
            try:
                conn, _ = listener.accept()
                threading.Thread(target=self.greet, args=(name, conn), daemon=True).start()
            except OSError:
                return

    def greet(self, name, conn):
        peer = Peer(conn, False)
        try:
            head = peer.head()
            self.seen[f"{name} head"] = head
            if self.does == f"{name} garbage":
                conn.sendall(os.urandom(300) + b"\r\n\r\n")
                return
            if self.does == f"{name} mute":
                time.sleep(10)
                return
            names = b"sec-websocket-key"
            key = [line.split(b": ")[1] for line in head.split(b"\r\n") if line.lower().startswith(names)]
            conn.sendall(b"HTTP/1.1 101 Switching Protocols\r\nUpgrade: websocket\r\nConnection: Upgrade\r\n"
                         b"Sec-WebSocket-Accept: " + accept_key(key[0]) + b"\r\n\r\n")
            getattr(self, name)(peer)
            self.listen(name, peer)
        except (EOFError, OSError, TimeoutError, ValueError) as error:
            self.seen[f"{name} ended"] = repr(error)

    def listen(self, name, peer):
        while True:
            opcode, payload = peer.hear(60)
            if opcode == CLOSE:
                self.seen[f"{name} close"] = struct.unpack(">H", payload[:2])[0] if payload else 1005
                return
            if opcode == PONG:
                self.seen[f"{name} pong"] = payload

    def cii(self, peer):
        if self.does == "cii bad":
            peer.say(b"[]")
            return
        text = json.dumps(state_of(self.port)).encode()
        peer.say(text[:20], TEXT, False)
        peer.say(b"p", PING)
        peer.say(text[20:], 0)

    def control(self):
        return {"contentTime": str(START), "wallClockTime": str(self.began), "timelineSpeedMultiplier": 1}

    def ts(self, peer):
        self.seen["setup"] = json.loads(peer.hear()[1])
        if self.does == "ts long":
            try:
                peer.say(b" " * 1_048_576)
            except OSError:
                pass
            return
        peer.say(self.control())
        if self.does == "ts ends":
            time.sleep(0.3)
            peer.say(struct.pack(">H", 1001), CLOSE)
        if self.does == "ts cut":
            time.sleep(0.3)
            peer.conn.sendall(b"\x81\x7e\x10")
            peer.conn.close()
        if self.does == "ts flood":
            for _ in range(20000):
                peer.say(b"f" * 100, PING)

    def tick(self, reading):
        """The tick that the control timestamp assigns to this reading of the machine's clock."""
        return START + (reading + OFFSET - self.began) * 90000 // 1_000_000_000


WORDS = ["--reports", "5", "--report-every", "1000000000", "--ask-every", "50000000", "--turns", "20000", "--record"]


def run(times, port, program, does):
    """A companion's run against such a television: its reports with the ticks that were true when they were made, its
    status, and what was seen of it. The record tells the reading at which a report was made."""
    server = Server(port, does)
    child = start(program, ["companion", "--cii", f"ws://127.0.0.1:{port}/cii", *slower(WORDS, times)])
    lines, reading = [], 0
    for line in child.stdout:
        verb, _, rest = line.decode().strip().partition(" ")
        if verb == "turn":
            reading = int(rest)
        if verb == "report":
            lines.append((rest, server.tick(reading)))
    status = child.wait()
    told = child.stderr.read().decode().strip()
    server.end()
    return lines, status, server.seen, told


def are_true(lines):
    """Whether there are intervals, and each contains the tick of its reading. One that doesn't counts also where its
    run is tried again."""
    rows = [(line.split(), tick) for line, tick in lines if " ticks " in line]
    FALSE.extend(row for row, tick in rows if not int(row[2]) <= tick <= int(row[3]))
    return bool(rows) and not FALSE


def widths(lines):
    return [int(line.split()[3]) - int(line.split()[2]) for line, _ in lines if " ticks " in line]


def good(check, times, program, port):
    lines, status, seen, told = run(times, port, program, "")
    last = lines[-1][0] if lines else told
    check("a companion makes its reports", status == 0 and len(lines) == 5 and last.startswith("5 ticks "), last)
    check("they are true", are_true(lines), widths(lines))
    wanted = {"contentIdStem": "", "timelineSelector": TIMELINE}
    check("its setup is told", seen.get("setup") == wanted, seen.get("setup"))
    check("its pong is masked and right", wait_for(lambda: seen.get("cii pong") == b"p"))
    check("it hangs up in the end", wait_for(lambda: seen.get("ts close") == 1000 and seen.get("cii close") == 1000))


def lossy(check, times, program, port):
    lines, status, _, _ = run(times, port, program, "lossy")
    check("lost, repeated and reordered answers leave true reports", status == 0 and are_true(lines), widths(lines))


def bad(check, times, program, port, does, wanted, last):
    lines, status, seen, told = run(times, port, program, does)
    end = lines[-1][0] if lines else ""
    holds = status == wanted and last in end
    if does == "ts long":
        holds = holds and wait_for(lambda: seen.get("ts close") == 1009)
    check(f"a television with '{does}'", holds, f"status {status}, {end or told}")


def nobody(check, program):
    child = start(program, ["companion", "--cii", f"ws://127.0.0.1:{closed_port()}/cii", "--turns", "50"])
    check("no television at all is unreachable", child.wait() == 10, child.stderr.read().decode().strip())


BAD = (("ts ends", 0, "none SessionClosed"), ("ts cut", 0, "none SessionClosed"), ("ts long", 0, "none NoTimestamp"),
       ("ts flood", 0, " ticks "), ("ts garbage", 0, "none NoTimestamp"), ("ts mute", 0, "none NoTimestamp"),
       ("cii bad", 7, ""), ("cii garbage", 0, "none NoAnswer"))


def against_companion(port, program, check):
    """Twenty ports."""
    Beside([(nobody, program), (patiently, good, program, port), (patiently, lossy, program, port + 2),
            *[(patiently, bad, program, port + 4 + 2 * at, *one) for at, one in enumerate(BAD)]]).tell(check)
