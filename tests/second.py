#!/usr/bin/env python3
"""Replays drawn schedules of both ends by a plain second computation, and compares it with the program `css`.

    tests/second.py [COUNT [SEED]]       COUNT schedules (500), replayed by the program that ./css builds, or by $CSS
    tests/second.py --write FOLDER [COUNT [SEED]]
                                         writes the schedules, and beside each what is to be printed, to a folder

The second computation keeps whole lists: what happened at the television, and what the companion did. At each line it
begins with the lists anew, and looks into no queue and no estimate. It shares no code with the program.
"""

import os
import random
import subprocess
import sys

from checks import css

F = 256_000_000
SECOND = 10**9
PTS = "urn:dvb:css:timeline:pts"
CII, TS = 1, 2
MOST = 10**17
NO_TIMES = ("minusinfinity", "plusinfinity")


class Broken(Exception):
    pass


class Absent(Exception):
    pass


class Refused(Exception):
    pass


def ceil_div(a, b):
    return -(-a // b)


def precision_ns(exponent):
    return SECOND << exponent if exponent >= 0 else ceil_div(SECOND, 1 << -exponent)


# ---- the television, from the list of its events


def show(track, media):
    _, upt, ups, base = track
    return base + media * ups // (upt * SECOND)


class Television:
    """What a television shows and tells after its events."""

    def __init__(self, events):
        self.programmes, self.segment = [], None
        self.open, self.setups, self.windows = [], {}, {}
        self.told = {CII: [], TS: []}
        for event in events:
            getattr(self, event[0])(*event[1:])

    def state(self):
        if self.segment is None:
            return None
        content, tracks = self.programmes[self.segment["programme"] - 1]
        return (content, tuple((selector, upt, ups) for selector, upt, ups, _ in tracks))

    def track(self, selector):
        if self.segment is None:
            return None
        _, tracks = self.programmes[self.segment["programme"] - 1]
        return next((track for track in tracks if track[0] == selector), None)

    def control(self, stem, selector):
        track = self.track(selector)
        if track is None or not self.programmes[self.segment["programme"] - 1][0].startswith(stem):
            return None
        return (show(track, self.segment["media"]), self.segment["at"], self.segment["speed"])

    def publish(self):
        if CII in self.open and self.told[CII][-1] != self.state():
            self.told[CII].append(self.state())
        if TS in self.open and TS in self.setups and self.told[TS][-1] != self.control(*self.setups[TS]):
            self.told[TS].append(self.control(*self.setups[TS]))

    def programme(self, content):
        if len(self.programmes) == 1000:
            raise Refused("full")
        self.programmes.append((content, []))
        self.publish()

    def timeline(self, number, selector, upt, ups, base):
        if not 1 <= number <= len(self.programmes):
            raise Refused("no programme")
        if abs(base) > MOST:
            raise Refused("range")
        if len(self.programmes[number - 1][1]) == 16:
            raise Refused("full")
        self.programmes[number - 1][1].append((selector, upt, ups, base))
        self.publish()

    def viewer(self, command, reading, value):
        now = self.segment
        if command == "change":
            if not 1 <= value <= len(self.programmes):
                raise Refused("no programme")
            now = {"at": reading, "media": 0, "speed": 1, "programme": value, "delay": 0}
        elif now is None:
            raise Refused("no programme")
        elif command == "speed":
            if abs(value) > 64:
                raise Refused("speed")
            media = now["media"] + (reading - now["at"]) * now["speed"]
            now = dict(now, at=reading, media=media, speed=value)
        else:
            now = dict(now, at=reading, media=value)
        if abs(now["media"]) > MOST:
            raise Refused("range")
        self.segment = now
        self.windows = {}
        self.publish()

    def opened(self, peer):
        self.open.append(peer)
        if peer == CII:
            self.told[CII].append(self.state())

    def heard(self, text):
        if TS not in self.setups:
            self.setups[TS] = text
            self.told[TS].append(self.control(*text))
            return
        control, track = self.control(*self.setups[TS]), self.track(self.setups[TS][1])
        if control is not None:
            _, upt, ups, _ = track
            offset = lambda content, wall: None if wall in NO_TIMES else wall * ups - content * upt * SECOND
            own = offset(control[0], control[1] - self.segment["delay"])
            self.windows[TS] = (ups, own, offset(*text[0]), offset(*text[1]))
        if self.segment is not None and self.segment["speed"] == 1:
            self.choose()
        self.publish()

    def choose(self):
        low, high = 0, 10 * SECOND
        for ups, own, earliest, latest in self.windows.values():
            if earliest is not None:
                low = max(low, ceil_div(earliest - own, ups))
            if latest is not None:
                high = min(high, (latest - own) // ups)
        at = self.segment["at"] + low - self.segment["delay"]
        if low <= high and at >= 0:
            self.segment = dict(self.segment, at=at, delay=low)

    def closed(self, peer):
        self.open.remove(peer)
        self.windows.pop(peer, None)


# ---- the companion, from the list of what it did


def span(answer, own, reading):
    t1, t2, t3, t4, p, e = answer
    error, precision = own
    low, high = (F - e) * (reading - t4 - 2 * precision - 1), (F + e) * (reading - t1 + 2 * precision + 1)
    width = (t2 - t3 + 2 * p + 2) * (F + error) * (F - error) + high * (F + error) - low * (F - error)
    return width, t3 - p - 1 + low // (F + error), t2 + p + 1 + ceil_div(high, F - error)


class Companion:
    """What a companion knows after what it did."""

    def __init__(self, done, own, setup):
        self.own, self.setup = own, setup
        self.requests, self.responses, self.accepted = [], [], []
        self.opened, self.closed = [], []
        self.states, self.controls, self.written = [], [], []
        for entry in done:
            getattr(self, entry[0])(*entry[1:])

    def asked(self, reading):
        self.requests.append(reading)

    def landed(self, datagram, reading, precision, error):
        kind, originate, receive, transmit = datagram
        if originate not in self.requests[-64:]:
            return
        landing = reading
        if kind == 2:
            self.responses.append((originate, receive, reading))
        if kind == 3:
            landing = next((r for o, v, r in self.responses if (o, v) == (originate, receive)), reading)
        answer = (originate, receive, transmit, landing, precision, error)
        if span(answer, self.own, reading)[0] >= 0:
            self.accepted.append(answer)

    def dialled(self, peer):
        self.opened.append(peer)
        if peer == TS:
            self.written.append(self.setup)

    def heard(self, peer, text):
        (self.states if peer == CII else self.controls).append(text)

    def presented(self, earliest, latest):
        self.written.append((earliest, latest))

    def hung_up(self, peer):
        self.closed.append(peer)

    def is_open(self, peer):
        return peer in self.opened and peer not in self.closed

    def wall(self, reading):
        spans = [span(answer, self.own, reading) for answer in self.accepted]
        return min(spans, key=lambda s: s[0])[1:] if spans else None

    def rate(self):
        timelines = self.states[-1][1] if self.states and self.states[-1] is not None else ()
        listed = next(((upt, ups) for selector, upt, ups in timelines if selector == self.setup[1]), None)
        return listed or ((1, 90_000) if self.setup[1] == PTS else None)

    def report(self, reading, wall):
        ends = self.wall(reading)
        if ends is None:
            return "none NoAnswer"
        if not self.controls:
            return "none NoTimestamp"
        if TS in self.closed:
            return "none SessionClosed"
        if self.controls[-1] is None:
            return "none Unavailable"
        if self.rate() is None:
            return "none NoRate"
        (content, at, speed), (upt, ups) = self.controls[-1], self.rate()
        tick = lambda value: content + (value - at) * speed * ups // (upt * SECOND)
        low, high = sorted(map(tick, ends))
        return f"ticks {low} {high} at {tick(wall)}"


# ---- a schedule


class Clock:
    """A clock's values at the lines so far, and the readings of it."""

    def __init__(self, error, precision):
        self.error, self.precision = error, precision
        self.shown, self.last = [], None

    def show(self, number, time, value):
        if self.shown and time < self.shown[-1][1]:
            raise Broken(self.shown[-1][0], self.shown[-1][1] - time)
        worst = None
        for line, t, x in self.shown:
            excess = abs((value - x) - (time - t)) * F - self.error * (time - t) - F
            if excess > 0 and (worst is None or excess > worst[1]):
                worst = (line, excess)
        if worst:
            raise Broken(*worst)
        self.shown.append((number, time, value))

    def read(self, number, value, reading):
        if abs(reading - value) > self.precision:
            raise Broken(number, abs(reading - value) - self.precision)
        if self.last and reading < self.last[1]:
            raise Broken(self.last[0], self.last[1] - reading)
        self.last = (number, reading)


PEERS = {"cii": CII, "ts": TS}


class Replay:
    """The lines of a schedule after its header, carried out one after another."""

    def __init__(self, header):
        _, _, mode, tv_error, exponent, error, precision, selector, stem = header.split(" ")
        self.follow = mode == "follow"
        self.error, self.precision = int(tv_error), precision_ns(int(exponent))
        self.own, self.setup = (int(error), int(precision)), ("" if stem == "-" else stem, selector)
        self.tv_clock, self.own_clock = Clock(self.error, self.precision), Clock(*self.own)
        self.requests, self.takes, self.given, self.datagrams = [], [], set(), []
        self.events, self.done = [], []

    def companion(self):
        return Companion(self.done, self.own, self.setup)

    def line(self, number, text):
        t, w, l, verb, *rest = text.split(" ")
        t, w, l = int(t), int(w), int(l)
        self.tv_clock.show(number, t, w)
        self.own_clock.show(number, t, l)
        if verb in ("take", "give"):
            self.tv_clock.read(number, w, int(rest[1]))
        elif verb in ("change", "speed", "seek"):
            self.tv_clock.read(number, w, int(rest[0]))
        elif verb in ("ask", "land", "wall", "print"):
            self.own_clock.read(number, l, int(rest[-1]))
        return getattr(self, "do_" + verb)(number, w, *rest) or ""

    def play(self, *event):
        Television(self.events + [event])
        self.events.append(event)

    def do_ask(self, number, w, reading):
        self.requests.append(int(reading))
        self.done.append(("asked", int(reading)))

    def do_take(self, number, w, request, reading):
        if not 1 <= int(request) <= len(self.requests):
            raise Absent
        promised = self.follow and all(int(reading) > earlier for _, earlier, _ in self.takes)
        self.takes.append((self.requests[int(request) - 1], int(reading), promised))

    def do_give(self, number, w, take, reading):
        if not 1 <= int(take) <= len(self.takes) or int(take) in self.given:
            raise Absent
        self.given.add(int(take))
        originate, receive, promised = self.takes[int(take) - 1]
        if promised:
            self.datagrams += [(2, originate, receive, receive), (3, originate, receive, int(reading))]
        else:
            self.datagrams.append((1, originate, receive, int(reading)))

    def do_land(self, number, w, datagram, reading):
        if not 1 <= int(datagram) <= len(self.datagrams):
            raise Absent
        self.done.append(("landed", self.datagrams[int(datagram) - 1], int(reading), self.precision, self.error))

    def do_wall(self, number, w, reading):
        ends = self.companion().wall(int(reading))
        return f"{number} none NoAnswer\n" if ends is None else f"{number} wall {ends[0]} {ends[1]} at {w}\n"

    def do_print(self, number, w, reading):
        return f"{number} {self.companion().report(int(reading), w)}\n"

    def do_programme(self, number, w, content):
        self.play("programme", content)

    def do_timeline(self, number, w, programme, selector, upt, ups, base):
        self.play("timeline", int(programme), selector, int(upt), int(ups), int(base))

    def viewer(self, command, reading, value):
        self.play("viewer", command, int(reading), int(value))

    def do_change(self, number, w, reading, value):
        self.viewer("change", reading, value)

    def do_speed(self, number, w, reading, value):
        self.viewer("speed", reading, value)

    def do_seek(self, number, w, reading, value):
        self.viewer("seek", reading, value)

    def do_open(self, number, w, kind):
        if PEERS[kind] in self.companion().opened:
            raise Absent
        self.play("opened", PEERS[kind])
        self.done.append(("dialled", PEERS[kind]))

    def do_text(self, number, w, kind):
        peer, companion = PEERS[kind], self.companion()
        came = companion.states if peer == CII else companion.controls
        told = Television(self.events).told[peer]
        if not companion.is_open(peer) or len(came) >= len(told):
            raise Absent
        self.done.append(("heard", peer, told[len(came)]))

    def do_up(self, number, w, kind):
        companion = self.companion()
        came = [event for event in self.events if event[0] == "heard"]
        if not companion.is_open(TS) or len(came) >= len(companion.written):
            raise Absent
        self.play("heard", companion.written[len(came)])

    def do_present(self, number, w, *bounds):
        if not self.companion().is_open(TS):
            raise Absent
        numbers = [bound if bound in NO_TIMES else int(bound) for bound in bounds]
        self.done.append(("presented", tuple(numbers[:2]), tuple(numbers[2:])))

    def do_close(self, number, w, kind):
        if not self.companion().is_open(PEERS[kind]):
            raise Absent
        self.play("closed", PEERS[kind])
        self.done.append(("hung_up", PEERS[kind]))


def replay(schedule):
    """What is printed for a schedule whose lines are in the grammar, the exit status and the status line."""
    lines = schedule.splitlines()
    world, printed = Replay(lines[0]), ""
    for number, text in enumerate(lines[1:], 2):
        try:
            printed += world.line(number, text)
        except Broken as fault:
            return printed, 3, f"css: line {number}: broken with line {fault.args[0]} by {fault.args[1]}\n"
        except Absent:
            return printed, 2, f"css: line {number}: absent\n"
        except Refused as fault:
            return printed, 2, f"css: line {number}: {fault.args[0]}\n"
    return printed, 0, ""


# ---- drawn schedules


# What most schedules begin with.
BEGINNING = (
    "programme", "timeline", "change", "open cii", "open ts", "text cii", "up ts", "text ts", "ask", "take", "give",
    "land",
)
# What a line is drawn from.
VERBS = (
    ["ask", "take", "give", "timeline", "up ts", "present"] * 2 + ["land", "text ts"] * 3 + ["print"] * 4
    + ["wall", "programme", "change", "speed", "seek", "open cii", "open ts", "text cii"]
)


class Drawer:
    """Draws a schedule. Few of its lines are refused, so that most of them are long."""

    def __init__(self, seed):
        self.draw = random.Random(seed)
        self.rough = self.draw.random() < 0.3
        self.tv_error, self.error = self.draw.choice([0, 12_800, 2_560_000]), self.draw.choice([0, 12_800, 2_560_000])
        self.exponent, self.precision = self.draw.choice([-30, -20, -8]), self.draw.choice([0, 1000, 10**6])
        self.selector = self.draw.choice([PTS, PTS, "urn:x:1"])
        self.stem = self.draw.choice(["-", "dvb://", "dvb://1.2.3"])
        self.t, self.tv_drift, self.own_drift = 0, self.drift(self.tv_error), self.drift(self.error)
        self.tv_reading = self.own_reading = self.requests = self.takes = self.datagrams = self.programmes = 0

    def drift(self, error):
        return self.draw.uniform(-error, error) / F

    def near(self, value, precision, last):
        reading = max(value + self.draw.randint(-precision, precision) if precision else value, last)
        return max(0, reading)

    def header(self):
        mode = self.draw.choice(["plain", "follow"])
        return (f"css-schedule 1 {mode} {self.tv_error} {self.exponent} {self.error} {self.precision} "
                f"{self.selector} {self.stem}\n")

    def some(self, count):
        return self.draw.randint(1, max(count, 1)) if not self.rough else self.draw.randint(1, count + 1)

    def bound(self, infinite):
        if self.draw.random() < 0.4:
            return f"{self.content()} {infinite}"
        return f"{self.content()} {max(0, self.wall() + self.draw.randint(-10**9, 10**10))}"

    def content(self):
        return self.draw.choice([0, 900_000, self.draw.randint(-10**6, 10**6)])

    def timeline(self):
        rate = f"{self.draw.choice([1, 1001])} {self.draw.choice([50, 90_000, 10**9])}"
        return f"{self.draw.choice([PTS, 'urn:x:1'])} {rate} {self.content()}"

    def wall(self):
        return 10**10 + self.t + int(self.tv_drift * self.t)

    def words(self, first):
        w, l = self.wall(), 5 * 10**9 + self.t + int(self.own_drift * self.t)
        tv = self.near(w, min(precision_ns(self.exponent), 10**6), self.tv_reading)
        own = self.near(l, self.precision, self.own_reading)
        verb = first or self.draw.choice(VERBS + ["close cii", "close ts"] * self.rough)
        words = {
            "ask": f"ask {own}", "wall": f"wall {own}", "print": f"print {own}",
            "take": f"take {self.some(self.requests)} {tv}", "give": f"give {self.some(self.takes)} {tv}",
            "land": f"land {self.some(self.datagrams)} {own}",
            "programme": f"programme {self.draw.choice(['dvb://1.2.3', 'dvb://1.2.4', 'http://x'])}",
            "timeline": f"timeline {self.some(self.programmes)} {self.timeline()}",
            "change": f"change {tv} {self.some(self.programmes)}",
            "speed": f"speed {tv} {self.draw.choice([1, 1, 0, -2, 64])}",
            "seek": f"seek {tv} {self.draw.randint(-10**12, 10**13)}",
            "present": f"present {self.bound('minusinfinity')} {self.bound('plusinfinity')}",
        }.get(verb, verb)
        return f"{self.t} {w} {l} {words}", verb, tv, own

    def schedule(self, count):
        text, tries = self.header(), 0
        first = list(BEGINNING) if self.draw.random() < 0.8 else []
        while count and tries < 2000:
            tries += 1
            before = self.t
            self.t += self.draw.choice([0, self.draw.randint(1, 10**6), self.draw.randint(1, 10**9)])
            line, verb, tv, own = self.words(first[0] if first else None)
            told, status, _ = replay(text + line + "\n")
            if status != 0 and not (self.rough and self.draw.random() < 0.02):
                self.t = before
                continue
            text += line + "\n"
            count -= 1
            if status != 0:
                break
            self.count(verb, tv, own, text)
            first = first[1:]
        return text

    def count(self, verb, tv, own, text):
        if verb in ("ask", "land", "wall", "print"):
            self.own_reading = own
        if verb in ("take", "give", "change", "speed", "seek"):
            self.tv_reading = tv
        self.requests += verb == "ask"
        self.takes += verb == "take"
        self.programmes += verb == "programme"
        if verb == "give":
            world = Replay(text.splitlines()[0])
            for number, line in enumerate(text.splitlines()[1:], 2):
                world.line(number, line)
            self.datagrams = len(world.datagrams)


def drawn(count, seed):
    for number in range(count):
        draw = random.Random(f"{seed} {number}")
        yield number, Drawer(f"{seed} {number}").schedule(draw.choice([20, 40, 60]))


def run(program, schedule):
    """What the program prints, its exit status and its status line. A hint may follow that, and isn't looked at."""
    ran = subprocess.run([program, "replay"], input=schedule.encode(), capture_output=True, timeout=120)
    lines = ran.stderr.decode().splitlines(keepends=True)
    return ran.stdout.decode(), ran.returncode, "".join(line for line in lines if not line.startswith("css: hint: "))


def write(folder, count, seed):
    for number, schedule in drawn(count, seed):
        for name, text in ((f"{number}", schedule), (f"{number}.stdout", replay(schedule)[0])):
            with open(os.path.join(folder, name), "w", encoding="ascii") as out:
                out.write(text)


def compare(count, seed):
    program = css()
    lines = printed = intervals = 0
    ends = {}
    for number, schedule in drawn(count, seed):
        wanted, found = replay(schedule), run(program, schedule)
        if wanted != found:
            sys.exit(f"schedule {number} of seed {seed} differs:\n{schedule}wanted {wanted}\nfound  {found}")
        lines += schedule.count("\n")
        printed += wanted[0].count("\n")
        intervals += wanted[0].count("ticks") + wanted[0].count("wall")
        ends[wanted[1]] = ends.get(wanted[1], 0) + 1
    print(f"{count} schedules, {lines} lines, {printed} printed, {intervals} intervals: no difference")
    print(f"by status {ends}")


def main():
    words = sys.argv[1:]
    if words[:1] == ["--write"]:
        write(words[1], *map(int, words[2:3] or [200]), *map(int, words[3:4] or [1]))
    else:
        compare(*map(int, words[:1] or [500]), *map(int, words[1:2] or [1]))


if __name__ == "__main__":
    main()
