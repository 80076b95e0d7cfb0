#!/usr/bin/env python3
"""Replays drawn schedules of several companions by a plain second computation, and compares it with the program `css`.

    tests/crowds.py [COUNT [SEED]]       COUNT schedules (60), replayed by the program that ./css builds, or by $CSS

Each schedule has 2 to 16 companions, with one sleep in a hundred lines. Answers come out of order, and some are lost.
At least half of the reports of all schedules together must be intervals. One schedule in four ends with a line that is
refused. The second computation is that of second.py, with the lists of each companion; it shares no code with the
program.
"""

import random
import sys

from checks import css
from second import CII, F, PTS, TS, Absent, Broken, Clock, Companion, Refused, Television, precision_ns, run

KINDS = {"cii": CII, "ts": TS}


def peer_of(who, kind):
    return 2 * who - (kind == CII)


def is_cii(peer):
    return peer % 2 == 1


class CrowdTelevision(Television):
    """A television with two sessions for each companion."""

    def publish(self):
        for peer in self.open:
            told = self.told[peer]
            if is_cii(peer) and told[-1] != self.state():
                told.append(self.state())
            if peer in self.setups and told[-1] != self.control(*self.setups[peer]):
                told.append(self.control(*self.setups[peer]))

    def opened(self, peer):
        self.open.append(peer)
        self.told[peer] = [self.state()] if is_cii(peer) else []

    def heard(self, peer, text):
        self.setups[peer] = text
        self.told[peer].append(self.control(*text))


class Sleeper(Companion):
    def slept(self):
        self.requests, self.responses, self.accepted = [], [], []


class SleepyClock(Clock):
    """A clock that says nothing of the time before its last sleep but what was read last."""

    woken = False

    def slept(self):
        self.shown, self.woken = [], True

    def read(self, number, value, reading):
        is_near = abs(reading - value) <= self.precision
        if is_near and self.woken and self.last and reading <= self.last[1]:
            raise Broken(self.last[0], self.last[1] - reading + 1)
        super().read(number, value, reading)
        self.woken = False


class Member:
    """One companion of a schedule: its clock, and what it did."""

    def __init__(self, line, number):
        _, who, error, precision, selector, stem = line.split(" ")
        assert int(who) == number
        self.own, self.setup = (int(error), int(precision)), ("" if stem == "-" else stem, selector)
        self.clock, self.done = SleepyClock(*self.own), []

    def companion(self):
        return Sleeper(self.done, self.own, self.setup)


class CrowdReplay:
    """The lines of a schedule of version 2 after those of its header."""

    def __init__(self, opening):
        _, _, mode, error, exponent, count = opening[0].split(" ")
        self.follow, self.error, self.precision = mode == "follow", int(error), precision_ns(int(exponent))
        self.members = [Member(line, number) for number, line in enumerate(opening[1:], 1)]
        assert len(self.members) == int(count)
        self.clock = Clock(self.error, self.precision)
        self.requests, self.takes, self.given, self.datagrams, self.events = [], [], set(), [], []

    def line(self, number, text):
        t, w, who, l, verb, *rest = text.split(" ")
        t, w, who, l = int(t), int(w), int(who), int(l)
        member = self.members[who - 1] if who else None
        self.clock.show(number, t, w)
        if member:
            if verb == "sleep":
                member.clock.slept()
            member.clock.show(number, t, l)
        if verb in ("take", "give"):
            self.clock.read(number, w, int(rest[1]))
        elif verb in ("change", "speed", "seek"):
            self.clock.read(number, w, int(rest[0]))
        elif verb in ("ask", "land", "wall", "print"):
            member.clock.read(number, l, int(rest[-1]))
        return getattr(self, "do_" + verb)(number, w, who, *rest) or ""

    def member(self, who):
        return self.members[who - 1]

    def play(self, *event):
        CrowdTelevision(self.events + [event])
        self.events.append(event)

    def do_programme(self, number, w, who, content):
        self.play("programme", content)

    def do_timeline(self, number, w, who, programme, selector, upt, ups, base):
        self.play("timeline", int(programme), selector, int(upt), int(ups), int(base))

    def do_change(self, number, w, who, reading, value):
        self.play("viewer", "change", int(reading), int(value))

    def do_speed(self, number, w, who, reading, value):
        self.play("viewer", "speed", int(reading), int(value))

    def do_seek(self, number, w, who, reading, value):
        self.play("viewer", "seek", int(reading), int(value))

    def do_ask(self, number, w, who, reading):
        self.requests.append((who, int(reading)))
        self.member(who).done.append(("asked", int(reading)))

    def do_take(self, number, w, who, request, reading):
        if not 1 <= int(request) <= len(self.requests):
            raise Absent
        promised = self.follow and all(int(reading) > take[2] for take in self.takes)
        self.takes.append((*self.requests[int(request) - 1], int(reading), promised))

    def do_give(self, number, w, who, take, reading):
        if not 1 <= int(take) <= len(self.takes) or int(take) in self.given:
            raise Absent
        self.given.add(int(take))
        asker, originate, receive, promised = self.takes[int(take) - 1]
        if promised:
            self.datagrams.append((asker, (2, originate, receive, receive)))
            self.datagrams.append((asker, (3, originate, receive, int(reading))))
        else:
            self.datagrams.append((asker, (1, originate, receive, int(reading))))

    def do_land(self, number, w, who, datagram, reading):
        if not 1 <= int(datagram) <= len(self.datagrams) or self.datagrams[int(datagram) - 1][0] != who:
            raise Absent
        message = self.datagrams[int(datagram) - 1][1]
        self.member(who).done.append(("landed", message, int(reading), self.precision, self.error))

    def do_wall(self, number, w, who, reading):
        ends = self.member(who).companion().wall(int(reading))
        return f"{number} none NoAnswer\n" if ends is None else f"{number} wall {ends[0]} {ends[1]} at {w}\n"

    def do_print(self, number, w, who, reading):
        return f"{number} {self.member(who).companion().report(int(reading), w)}\n"

    def do_sleep(self, number, w, who):
        self.member(who).done.append(("slept",))

    def do_open(self, number, w, who, kind):
        if KINDS[kind] in self.member(who).companion().opened:
            raise Absent
        self.play("opened", peer_of(who, KINDS[kind]))
        self.member(who).done.append(("dialled", KINDS[kind]))

    def waiting(self, who, kind):
        """The text that comes next to a companion, as a list of none or one."""
        companion = self.member(who).companion()
        came = companion.states if kind == CII else companion.controls
        told = CrowdTelevision(self.events).told.get(peer_of(who, kind), [])
        return told[len(came):][:1] if companion.is_open(kind) else []

    def do_text(self, number, w, who, kind):
        text = self.waiting(who, KINDS[kind])
        if not text:
            raise Absent
        self.member(who).done.append(("heard", KINDS[kind], text[0]))

    def do_up(self, number, w, who, kind):
        companion, peer = self.member(who).companion(), peer_of(who, TS)
        came = [event for event in self.events if event[:2] == ("heard", peer)]
        if not companion.is_open(TS) or len(came) >= len(companion.written):
            raise Absent
        self.play("heard", peer, companion.written[len(came)])


def replay(schedule):
    """What is printed for a schedule whose lines are in the grammar, the exit status and the status line."""
    lines = schedule.splitlines()
    opening = 1 + int(lines[0].split(" ")[5])
    world, printed = CrowdReplay(lines[:opening]), ""
    for number, text in enumerate(lines[opening:], opening + 1):
        try:
            printed += world.line(number, text)
        except Broken as fault:
            return printed, 3, f"css: line {number}: broken with line {fault.args[0]} by {fault.args[1]}\n"
        except Absent:
            return printed, 2, f"css: line {number}: absent\n"
        except Refused as fault:
            return printed, 2, f"css: line {number}: {fault.args[0]}\n"
    return printed, 0, ""


# ---- drawn schedules


class CrowdDrawer:
    """Draws a schedule, of which no line but the last is refused."""

    def __init__(self, seed):
        self.draw = random.Random(seed)
        self.count = self.draw.choice([2, 3, 16])
        self.t, self.asked, self.taken, self.made = 0, 0, 0, 0
        self.follow = self.draw.random() < 0.5
        self.drifts = [self.draw.uniform(-12_800, 12_800) / F for _ in range(self.count + 1)]
        self.starts = [10**10] + [self.draw.randint(1, 10**12) for _ in range(self.count)]
        self.last = [-1] * (self.count + 1)
        # What is on its way of each companion: its request, its take or its datagrams.
        self.under_way = [[] for _ in range(self.count + 1)]
        self.lines = [f"css-schedule 2 {'follow' if self.follow else 'plain'} 12800 -20 {self.count}"]
        self.lines += [f"companion {who} 12800 1000 {PTS} dvb://" for who in range(1, self.count + 1)]
        self.takes_rise = -1

    def clock(self, end):
        return self.starts[end] + self.t + int(self.drifts[end] * self.t)

    def line(self, who, words):
        own = self.clock(who) if who else 0
        if who:
            self.last[who] = own
        self.lines.append(f"{self.t} {self.clock(0)} {who} {own} {words}")

    def begin(self):
        self.line(0, "programme dvb://1")
        self.line(0, f"timeline 1 {PTS} 1 90000 900000")
        self.line(0, f"change {self.clock(0)} 1")
        for who in range(1, self.count + 1):
            for words in ("open cii", "text cii", "open ts", "up ts", "text ts"):
                self.line(who, words)

    def sleep(self, who):
        """The clock may have stood still since the last line, but for a nanosecond."""
        slack = self.clock(who) - self.last[who] - 1
        self.starts[who] -= self.draw.randint(0, max(0, slack))
        self.line(who, "sleep")
        self.under_way[who] = []

    def go_on(self, who):
        """The next of what is on its way."""
        own, tv, way = self.clock(who), self.clock(0), self.under_way[who]
        if not way:
            self.asked += 1
            self.line(who, f"ask {own}")
            way.append(("take", self.asked))
            return
        verb, number = way.pop(self.draw.randrange(len(way)))
        if verb == "take":
            self.taken += 1
            promised, self.takes_rise = self.follow and tv > self.takes_rise, max(self.takes_rise, tv)
            self.line(0, f"take {number} {tv}")
            way.append(("give", (self.taken, promised)))
        elif verb == "give":
            self.line(0, f"give {number[0]} {tv}")
            way.extend(("land", self.made + each) for each in range(1, 2 + number[1]))
            self.made += 1 + number[1]
        elif self.draw.random() < 0.9:
            self.line(who, f"land {number} {own}")

    def viewer(self):
        tv = self.clock(0)
        speed, media = self.draw.choice([0, 1, 2]), self.draw.randint(0, 10**12)
        self.line(0, self.draw.choice([f"speed {tv} {speed}", f"seek {tv} {media}"]))
        for who in range(1, self.count + 1):
            if self.draw.random() < 0.9:
                self.hear(who)

    def hear(self, who):
        opening = 1 + self.count
        world = CrowdReplay(self.lines[:opening])
        for number, text in enumerate(self.lines[opening:], opening + 1):
            world.line(number, text)
        if world.waiting(who, TS):
            self.line(who, "text ts")

    def refused(self):
        who = self.draw.randint(1, self.count)
        own = self.clock(who)
        if self.draw.random() < 0.3:
            self.line(who, f"wall {own}")
            self.line(who, "sleep")
        words = self.draw.choice([
            f"wall {own}", f"print {own + 1001}", f"land {self.made + 1} {own}", "text cii", "open ts",
            f"take {self.asked + 1} {self.clock(0)}", f"give {self.taken + 1} {self.clock(0)}",
        ])
        self.line(0 if words.startswith(("take", "give")) else who, words)

    def schedule(self, count):
        self.begin()
        for _ in range(count):
            self.t += self.draw.randint(1, 10**7)
            who, choice = self.draw.randint(1, self.count), self.draw.random()
            if choice < 0.01:
                self.sleep(who)
            elif choice < 0.02:
                self.viewer()
            elif choice < 0.3:
                self.line(who, f"{self.draw.choice(['print', 'print', 'wall'])} {self.clock(who)}")
            else:
                self.go_on(who)
        if self.draw.random() < 0.25:
            self.refused()
        return "\n".join(self.lines) + "\n"


def main():
    count, seed = [*map(int, sys.argv[1:3]), *(60, 1)[len(sys.argv) - 1:]]
    program, ends = css(), {}
    lines = prints = intervals = sleeps = 0
    for number in range(count):
        draw = random.Random(f"{seed} {number}")
        schedule = CrowdDrawer(f"{seed} {number}").schedule(draw.choice([100, 200, 400]))
        wanted, found = replay(schedule), run(program, schedule)
        if wanted != found:
            sys.exit(f"schedule {number} of seed {seed} differs:\n{schedule}wanted {wanted}\nfound  {found}")
        lines += schedule.count("\n")
        prints += wanted[0].count("\n")
        intervals += wanted[0].count("ticks") + wanted[0].count("wall")
        sleeps += schedule.count(" sleep\n")
        ends[wanted[1]] = ends.get(wanted[1], 0) + 1
    print(f"{count} schedules, {lines} lines, {sleeps} sleeps, {prints} printed, {intervals} intervals: no difference; "
          f"by status {ends}")
    if 2 * intervals < prints:
        sys.exit("too few intervals")


if __name__ == "__main__":
    main()
