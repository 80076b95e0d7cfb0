"""A television whose truth is known: what its clock shows at each reading, and what it said when. A `Set` is one on
real sockets that does what televisions do on an evening. tools/wrong_tv.py and tests/live_watch.py are made of it."""
import json
import random
import socket
import struct
import threading
import time

from peer import CLOSE, FAULTS, PATIENCE, TIMELINE, Listener, end_of, frame, greet, nanos, stamp, state

SECOND = 10**9
ERROR, PLAIN = 128_000, 37  # What its clock declares in 1/256 ppm, and by how many ppm it is fast.
RATE = {"unitsPerSecond": 90000, "unitsPerTick": 1}
HOST, TV = "127.0.0.1", "192.168.1.20"
PRECISION_BYTE = 0xEC  # 2^-20 s
LONG = 1000
UNAVAILABLE = {"contentTime": None, "timelineSpeedMultiplier": None, "wallClockTime": "0"}


def tick_at(wall, control, rate):
    """The tick that a control timestamp assigns to a wall clock time."""
    rise = (wall - int(control["wallClockTime"])) * control["timelineSpeedMultiplier"] * rate["unitsPerSecond"]
    return int(control["contentTime"]) + rise // (rate["unitsPerTick"] * SECOND)


class Television:
    """What is shown, and the texts that are told of it."""

    def __init__(self):
        self.begins = [(0, 1_764_403_200 * SECOND)]  # From when on the clock counts from where.
        self.drifts = [(0, PLAIN)]  # From when on it is so many ppm fast.
        self.on, self.told = True, True
        self.channel, self.control, self.rate = 1, None, RATE
        self.show(0, 900_000, 1)

    def wall(self, time):
        begin = max(begin for begin in self.begins if begin[0] <= time)[1]
        ends = [since for since, _ in self.drifts[1:]] + [time]
        return begin + time + sum((min(end, time) - since) * ppm // 10**6
                                  for (since, ppm), end in zip(self.drifts, ends) if since < time)

    def set_clock(self, time, by):
        self.begins.append((time, self.begins[-1][1] + by))

    def set_drift(self, time, ppm):
        self.drifts.append((time, ppm))

    def show(self, time, tick, speed):
        self.control = {"contentTime": str(tick), "timelineSpeedMultiplier": speed,
                        "wallClockTime": str(self.wall(time))}

    def tick(self, time):
        return tick_at(self.wall(time), self.control, self.rate)

    def state(self):
        timelines = [{"timelineProperties": self.rate, "timelineSelector": TIMELINE}]
        return {"contentId": f"dvb://233a.1004.{1043 + self.channel}", "contentIdStatus": "final", "mrsUrl": None,
                "presentationStatus": "okay", "protocolVersion": "1.1", "teUrl": None, "timelines": timelines,
                "tsUrl": f"ws://{TV}:6678/ts" if self.told else None,
                "wcUrl": f"udp://{TV}:6677" if self.told else None}


class WallClock:
    """Answers the requests that come to a port of its own."""

    def __init__(self, television, port):
        self.television, self.port, self.ends = television, port, False
        self.socket = socket.socket(socket.AF_INET, socket.SOCK_DGRAM)
        self.socket.setsockopt(socket.SOL_SOCKET, socket.SO_RCVBUF, 1 << 20)
        self.socket.bind((HOST, port))
        self.socket.settimeout(0.1)
        self.thread = threading.Thread(target=self.serve, daemon=True)
        self.thread.start()

    def serve(self):
        while not self.ends:
            try:
                data, sender = self.socket.recvfrom(64)
            except TimeoutError:
                continue
            except OSError:
                return
            if len(data) == 32:
                self.television.answer(self, data, sender)

    def say(self, datagram, sender):
        try:
            self.socket.sendto(datagram, sender)
        except OSError:
            pass  # Nobody is there any more.

    def end(self):
        self.ends = True
        self.thread.join()
        self.socket.close()


def answer_of(kind, originate, receive, transmit):
    """A datagram that answers a request. The times are nanoseconds, or bytes as they came."""
    times = [time if isinstance(time, bytes) else stamp(time) for time in (originate, receive, transmit)]
    return struct.pack(">BBBxI", 0, kind, PRECISION_BYTE, ERROR) + b"".join(times)


class Set(Television):
    """The television, at ports from this one on: CSS-CII and the wall clock, CSS-TS, and where it moves to. All that it
    says is noted with the reading of this machine's clock before it was said."""

    def __init__(self, port):
        super().__init__()
        self.port, self.last_port = port, port + 1
        self.lock, self.random = threading.RLock(), random.Random(5)
        self.greets, self.first = "well", None  # What becomes of a session of CSS-CII, and what it is told first.
        self.instead = {}  # Properties that are told otherwise.
        self.loss, self.follows, self.mute = 0, False, False
        self.slow, self.late = 0, 0  # So many ns a request is under way, and follow-ups tell a time so much later.
        self.refused, self.flooded = [], 0  # What it sent that is refused.
        self.controls, self.sessions, self.setups, self.sent = [], [], [], set()
        self.peers, self.sender, self.request, self.senders = {"CII": [], "TS": []}, None, None, {}
        self.listeners, self.open, self.hung_up, self.ends = [], {}, set(), []
        self.ts_ends = []  # When it ended its sessions of CSS-TS.
        self.show(time.monotonic_ns(), 900_000, 1)
        self.controls.append((0, self.control, None))
        self.clock = WallClock(self, port)
        self.listen("CII", port)
        self.listen("TS", port + 1)

    def another_port(self):
        self.last_port += 1
        return self.last_port

    def listen(self, kind, port):
        serve = self.serve_cii if kind == "CII" else self.serve_ts
        self.open[kind] = Listener(serve, port)
        self.listeners.append((kind, self.open[kind]))

    def dials(self, kind):
        """Between which times each dial of a kind came. Of the wall clock that is the first request from a port, which
        has the time at which it was made."""
        if kind == "WC":
            return [(at, at) for at in sorted(self.senders.values())]
        return sorted((dial for each, listener in self.listeners for dial in zip(listener.before, listener.times)
                       if each == kind), key=lambda dial: dial[1])

    # ---- the wall clock

    def answer(self, clock, data, sender):
        with self.lock:
            self.senders.setdefault(sender, nanos(data[8:16]) / SECOND)
            self.sender, self.request = sender, data[8:16]
            if self.mute or self.loses():
                return
            if self.slow:
                time.sleep(self.slow / SECOND)
            received = self.wall(time.monotonic_ns())
            kind = 2 if self.follows else 1
            sent = self.wall(time.monotonic_ns())
            self.say_answer(clock, kind, received, sent)
            if self.follows:
                self.say_answer(clock, 3, received, sent)

    def say_answer(self, clock, kind, received, sent):
        """A response has its receive value as its transmit value where a follow-up tells the better one."""
        transmit = received if kind == 2 else sent + self.late if kind == 3 else sent
        self.sent.add((kind, nanos(self.request), received, transmit))
        if not self.loses():
            clock.say(answer_of(kind, self.request, received, transmit), self.sender)

    def loses(self):
        return self.random.random() < self.loss

    def strange(self):
        """Sends a datagram of each kind that is refused. What each of them is refused for."""
        with self.lock:
            now = self.wall(time.monotonic_ns())
            good = answer_of(1, self.request, now, now)
            bad_second = stamp(now)[:4] + struct.pack(">I", SECOND)
            cases = [(b"", "Undecodable Length"), (good + b"\0", "Undecodable Length"),
                     (b"\1" + good[1:], "Undecodable Version"), (b"\0\4" + good[2:], "Undecodable MessageType"),
                     (good[:2] + b"\x1f" + good[3:], "Undecodable Precision"),
                     (good[:4] + struct.pack(">I", 25_600_001) + good[8:], "Undecodable Error"),
                     (good[:16] + bad_second + good[24:], "Undecodable Nanoseconds"),
                     (b"\0\0" + good[2:], "NotAnAnswer"), (answer_of(1, 1, now, now), "Unasked"),
                     (answer_of(1, self.request, now, now + 60 * SECOND), "Impossible")]
            for datagram, _ in cases:
                self.clock.say(datagram, self.sender)
        return [fault for _, fault in cases]

    def flood(self, seconds, rate=10_000):
        """So many datagrams a second, none of which is an answer that was asked for. How many were sent."""
        junk = [b"x" * 32, answer_of(1, 1, 2, 3), b"", answer_of(0, 1, 2, 3)]
        begun, sent = time.monotonic(), 0
        while (past := time.monotonic() - begun) < seconds:
            while sent < past * rate:
                self.clock.say(junk[sent % len(junk)], self.sender)
                sent += 1
            time.sleep(0.001)
        return sent

    # ---- sessions

    def state(self):
        told = state(self.clock.port, self.open["TS"].port)
        told["timelines"] = [{"timelineProperties": self.rate, "timelineSelector": TIMELINE}]
        return {**told, "contentId": f'dvb://233a.1004.{1043 + self.channel} "é"', **self.instead}

    def serve_cii(self, peer):
        if self.greets == "cut":
            peer.conn.close()
            return
        greet(peer)
        with self.lock:
            self.sessions.append([])
            if self.greets == "closed":
                self.hung_up.add(peer)
                peer.say(struct.pack(">H", 1001), CLOSE)
            elif self.first is not None:
                peer.say(self.first)
            else:
                self.peers["CII"].append(peer)
                self.sessions[-1].append(self.state())
                peer.say(self.state())
        self.hear("CII", peer)

    def serve_ts(self, peer):
        greet(peer)
        setup = json.loads(peer.hear()[1])
        with self.lock:
            self.setups.append(setup)
            self.peers["TS"].append(peer)
            peer.say(self.controls[-1][1])
        self.hear("TS", peer)

    def hear(self, kind, peer):
        """What comes is passed over, until the session ends. It is noted how, where the other end ends it."""
        try:
            codes, _, how = end_of(peer, LONG)
        except FAULTS as fault:
            codes, how = [], repr(fault)
        with self.lock:
            if peer not in self.hung_up:
                self.ends.append((kind, codes, how))
            if peer in self.peers[kind]:
                self.peers[kind].remove(peer)
        peer.conn.close()

    def hang_up(self, kind, how="closed"):
        """Ends the sessions of a kind: by a close, by the end of the connection, or by a reset."""
        with self.lock:
            peers, self.peers[kind] = self.peers[kind], []
            self.hung_up.update(peers)
            if kind == "TS":
                self.ts_ends.append(time.monotonic_ns())
        for peer in peers:
            try:
                if how == "closed":
                    peer.say(struct.pack(">H", 1001), CLOSE)
                elif how == "cut":
                    peer.conn.shutdown(socket.SHUT_RDWR)
                else:  # Whoever reads it finds its end then, and closes it.
                    peer.conn.setsockopt(socket.SOL_SOCKET, socket.SO_LINGER, struct.pack("ii", 1, 0))
                    peer.conn.shutdown(socket.SHUT_RD)
            except OSError:
                pass

    def say(self, kind, text):
        with self.lock:
            for peer in self.peers[kind]:
                try:
                    peer.say(text)
                except OSError:
                    pass

    def say_many(self, kind, seconds, rate, most=10**9, length=0):
        """Says again what it said last, so many times a second, or as often as the socket takes it, where the rate is
        0; with spaces up to a length. How often it was said."""
        with self.lock:
            peer, text = self.peers[kind][0], self.state() if kind == "CII" else self.controls[-1][1]
            told = self.sessions[-1]
        one = frame(1, json.dumps(text).encode().ljust(length), masked=False)
        begun, said = time.monotonic(), 0
        while (past := time.monotonic() - begun) < seconds and said < most:
            if said < past * rate or not rate:
                peer.conn.sendall(one)
                said += 1
                if kind == "CII":
                    told.append(text)
            else:
                time.sleep(0.001)
        return said

    def tell(self, text, fault=None):
        """Says this on CSS-TS from now on. A text that can't be read has a fault."""
        with self.lock:
            self.controls.append((time.monotonic_ns(), text, fault))
            self.say("TS", text)

    def said(self, since, until):
        """What it said on CSS-TS last, at some moment from one reading to another: each text, or its fault."""
        ends = [begin for begin, _, _ in self.controls[1:]] + [until + 1]
        return [fault or text for end, (begin, text, fault) in zip(ends, self.controls)
                if begin <= until and end > since]

    def go_on(self, tick=None, speed=None):
        """Goes on from here or from another tick, and at this speed."""
        with self.lock:
            now = time.monotonic_ns()
            speed = self.control["timelineSpeedMultiplier"] if speed is None else speed
            self.show(now, self.tick(now) if tick is None else tick, speed)
            self.tell(self.control)

    def update(self):
        """Says on CSS-CII what has changed."""
        with self.lock:
            if not self.peers["CII"]:
                return
            before, now = self.sessions[-1][-1], self.state()
            changes = {name: value for name, value in now.items() if before[name] != value}
            if changes:
                self.sessions[-1].append(now)
                self.say("CII", changes)

    # ---- what happens to a set

    def programme(self, rate=RATE):
        """Another programme, whose timeline begins anew and has this rate."""
        with self.lock:
            self.channel, self.rate = self.channel + 1, rate
            self.go_on(self.random.randrange(1 << 40), 1)
            self.update()

    def jump(self, seconds):
        """The wall clock is set, and the timeline goes on by it."""
        with self.lock:
            now = time.monotonic_ns()
            self.set_clock(now, round(seconds * SECOND))
            self.show(now, 5_000_000, 1)
            self.tell(self.control)

    def run_fast(self, ppm):
        """The wall clock is so many ppm fast from now on."""
        with self.lock:
            self.set_drift(time.monotonic_ns(), ppm)

    def begin_anew(self, **otherwise):
        """Hangs up CSS-TS, and does otherwise once somebody has begun anew. It answers nothing meanwhile, so nobody who
        has an answer of before gets one of after."""
        setups, end = len(self.setups), time.monotonic() + PATIENCE
        self.mute = True
        self.hang_up("TS")
        while len(self.setups) == setups and time.monotonic() < end:
            time.sleep(0.01)
        with self.lock:
            self.__dict__.update(otherwise)
            self.mute = False

    def move_clock(self):
        before, self.clock = self.clock, WallClock(self, self.another_port())
        self.update()
        before.end()

    def move_ts(self):
        before = self.open["TS"]
        self.listen("TS", self.another_port())
        self.update()
        before.end()

    def leave_ts(self, later):
        """Closes CSS-TS, and says so many seconds later where it is now. No answer comes meanwhile. How long it took,
        in nanoseconds."""
        before, self.mute, next_one = self.open["TS"], True, Listener(self.serve_ts, self.another_port())
        self.listeners.append(("TS", next_one))
        time.sleep(0.02)
        begun = time.monotonic_ns()
        self.hang_up("TS")
        time.sleep(later)
        self.open["TS"] = next_one
        self.update()
        took = time.monotonic_ns() - begun
        self.mute = False
        before.end()
        return took

    def switch_off(self, how="cut"):
        for kind in ("CII", "TS"):
            self.open[kind].end()
        for kind in ("CII", "TS"):
            self.hang_up(kind, how)
        self.clock.end()

    def switch_on(self):
        self.clock = WallClock(self, self.clock.port)
        for kind in ("TS", "CII"):
            self.listen(kind, self.open[kind].port)

    def end(self):
        self.switch_off()
