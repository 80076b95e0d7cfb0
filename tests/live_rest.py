"""An end rests until something is due, and a rest hides nothing: here nothing is due for a quarter of an hour, so what
is done in ten seconds is done because something came."""
import json, os, signal, socket, threading, time

from live_edge import Listener, companion, dial_soon, greet, hold, processor_times, state, stop
from live_peer import CLOSE, SETUP, accept_key, connection, dial, frame, nanos, request, set_up, start, upgrade_head
from television import answer_of

SOON = 10
SELDOM = str(10**12)
SCRIPT = "0 programme dvb://1\n0 timeline 1 urn:dvb:css:timeline:pts 1 90000 0\n0 change 1\n"


def stopped(child, act):
    """Something happens while a run is stopped. A wait that it made before ends with its going on."""
    os.kill(child.pid, signal.SIGSTOP)
    time.sleep(0.2)
    act()
    time.sleep(0.2)
    os.kill(child.pid, signal.SIGCONT)


# ---- a watch

class Set:
    """A television that says what it is told to, and answers each request."""

    def __init__(self):
        self.clock = socket.socket(socket.AF_INET, socket.SOCK_DGRAM)
        self.clock.bind(("127.0.0.1", 0))
        threading.Thread(target=self.answer, daemon=True).start()
        self.peers = {"CII": [], "TS": []}
        self.ts = Listener(self.serve_ts)
        self.cii = Listener(self.serve_cii)

    def answer(self):
        while True:
            data, sender = self.clock.recvfrom(64)
            now = time.monotonic_ns()
            self.clock.sendto(answer_of(1, data[8:16], now, now), sender)

    def serve_cii(self, peer):
        greet(peer)
        peer.say(state(self.clock.getsockname()[1], self.ts.port))
        self.peers["CII"].append(peer)
        hold(peer)

    def serve_ts(self, peer):
        greet(peer)
        peer.hear()
        self.peers["TS"].append(peer)
        hold(peer)

    def send(self, kind, data):
        self.peers[kind][-1].conn.sendall(data)


class Lines:
    """What a watch told, and when it was read."""

    def __init__(self, child):
        self.kept = []
        threading.Thread(target=self.take, args=(child,), daemon=True).start()

    def take(self, child):
        for row in child.stdout:
            self.kept.append(json.loads(row)["event"])

    def come(self, event, count):
        """Whether so many lines of an event have come soon."""
        end = time.monotonic() + SOON
        while self.kept.count(event) < count and time.monotonic() < end:
            time.sleep(0.01)
        return self.kept.count(event) >= count


def control(tick):
    text = {"contentTime": str(tick), "timelineSpeedMultiplier": 1, "wallClockTime": "0"}
    return frame(1, json.dumps(text).encode(), masked=False)


def watches(check, program):
    tv = Set()
    child = companion(program, tv.cii.port, "--seconds", "900", "--ask-every", SELDOM, "--report-every", SELDOM,
                      command="watch")
    lines = Lines(child)
    check("a watch with nothing due dials all services", lines.come("dial", 3), lines.kept)
    check("and has an answer", lines.come("answer", 1), lines.kept)
    while not tv.peers["TS"]:
        time.sleep(0.01)
    tv.send("TS", control(1) + control(2) + control(3))
    check("three texts that come at once are told", lines.come("control", 3), lines.kept)
    whole = control(4)
    tv.send("TS", whole[:9])
    time.sleep(0.3)
    tv.send("TS", whole[9:] + control(5)[:5])
    check("a text that comes in two halves is told", lines.come("control", 4), lines.kept)
    tv.send("TS", control(5)[5:])
    check("and the one that was begun with it", lines.come("control", 5), lines.kept)
    stopped(child, lambda: tv.send("TS", control(6)))
    check("a text that comes while the watch is stopped is told", lines.come("control", 6), lines.kept)
    before = processor_times(child.pid)[0]
    time.sleep(1)
    used = processor_times(child.pid)[0] - before
    check("a watch to which nothing comes takes next to nothing", used < 0.05, f"{used:.4f} s in a second")
    tv.send("CII", frame(CLOSE, b"\x03\xe9", masked=False))
    check("a close ends its visit, and the next one has an answer", lines.come("visit", 2) and lines.come("answer", 2),
          lines.kept)
    stop(child)


# ---- a television

def slow_dial(port):
    """A session whose handshake comes in pieces."""
    conn, key = connection(port), b"dGhlIHNhbXBsZSBub25jZQ=="
    head = upgrade_head(port, "/cii", key)
    for at in range(0, len(head), 60):
        conn.sendall(head[at:at + 60])
        time.sleep(0.1)
    conn.settimeout(SOON)
    return accept_key(key) in conn.recv(4096)


def answers(udp):
    udp.send(request(time.monotonic_ns()))
    return nanos(udp.recv(64)[24:32])


def serves(check, program, port):
    """A television whose next line is a year away, and its end too."""
    child = start(program, ["tv", "--port", str(port), "--seconds", "31536000", "--relative"],
                  SCRIPT + "31536000000000000 change 1\n")
    dial_soon(port, "/cii").text()
    udp = socket.socket(socket.AF_INET, socket.SOCK_DGRAM)
    udp.settimeout(SOON)
    udp.connect(("127.0.0.1", port))
    time.sleep(0.5)
    check("a television with nothing due answers a request", answers(udp), "")
    for _ in range(3):
        udp.send(request(time.monotonic_ns()))
    check("and three at once", all(nanos(udp.recv(64)[24:32]) for _ in range(3)), "")
    check("a handshake in pieces", slow_dial(port), "")
    many = [dial(port, "/cii") for _ in range(40)]
    check("40 sessions", all("wcUrl" in peer.text() for peer in many), "")
    ts, text = set_up(port)
    check("a setup", "contentTime" in text, text)
    two = json.dumps(SETUP).encode()
    other = dial(port + 1, "/ts")
    window = {name: {"contentTime": "0", "wallClockTime": wall} for name, wall in
              (("earliest", "1"), ("latest", "2000000000000000000"))}
    other.conn.sendall(frame(1, two) + frame(1, json.dumps(window).encode()) + frame(9, b"p"))
    check("a setup, a presentation and a ping in one piece", "contentTime" in other.text(), "")
    stopped(child, lambda: udp.send(request(time.monotonic_ns())))
    check("a request that comes while it is stopped", nanos(udp.recv(64)[24:32]), "")
    before = processor_times(child.pid)[0]
    time.sleep(1)
    used = processor_times(child.pid)[0] - before
    check("beside 42 quiet sessions it takes next to nothing", used < 0.05, f"{used:.4f} s in a second")
    stop(child)
    ts.conn.close()


def rests(port, program, check):
    watches(check, program)
    serves(check, program, port)
