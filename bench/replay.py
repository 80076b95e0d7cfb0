#!/usr/bin/env python3
"""Times `css replay` on schedules that this script makes.

    bench/replay.py [COUNT ..]          10,000, 100,000 and 1,000,000 lines, where no counts are given

For each count four schedules are made: one of exchanges in flight out of order, with follow-ups, in which one line in
five is `wall`; one of `wall` lines alone after a first exchange; and two evenings with such exchanges, viewer commands,
texts and presentations, in which one line in five is `print`. In the first, one line in twenty sends or brings a text,
and one in forty is a viewer's command; in the second, the busy one, these are two and one in ten. Printed are
nanoseconds of processor time a line, where that of a header alone is taken off, and the peak of resident memory. Where
valgrind is installed, the smallest count is run under it too, and instructions a line are printed: they don't depend on
the machine's load.
"""

import os
import random
import re
import shutil
import subprocess
import sys
import tempfile
import time

from programs import css

PROGRAM = css()
HEADER = "css-schedule 1 follow 12800 -20 12800 1000 urn:dvb:css:timeline:pts -\n"
WHOLE = 256_000_000
FASTER = 12_800


class Clocks:
    """True time, and the two clocks with their drifts."""

    def __init__(self):
        self.time = 0

    def pass_time(self, nanoseconds):
        self.time += nanoseconds

    def wall(self):
        return 1_000_000_000 + self.time + FASTER * self.time // WHOLE

    def own(self):
        return 1_000_000_000 + self.time - FASTER * self.time // WHOLE

    def line(self, words):
        return f"{self.time} {self.wall()} {self.own()} {words}\n"


def mixed(count, out):
    """Exchanges in flight: requests and datagrams are lost, repeated and reordered."""
    draw = random.Random(1)
    clocks = Clocks()
    requests = takes = datagrams = 0
    open_takes = []
    for number in range(count):
        clocks.pass_time(30_000 + draw.randrange(900_000))
        wall, own = clocks.wall(), clocks.own()
        kind = number % 5
        if kind == 0:
            out.write(clocks.line(f"wall {own}"))
        elif kind == 1 or requests == 0:
            requests += 1
            out.write(clocks.line(f"ask {own}"))
        elif kind == 2 or not open_takes and datagrams == 0:
            takes += 1
            open_takes.append(takes)
            out.write(clocks.line(f"take {requests - draw.randrange(min(requests, 4))} {wall}"))
        elif kind == 3 and open_takes:
            take = open_takes.pop(draw.randrange(len(open_takes)))
            datagrams += 2
            out.write(clocks.line(f"give {take} {wall}"))
        else:
            out.write(clocks.line(f"land {datagrams - draw.randrange(min(datagrams, 8))} {own}"))


def walls(count, out):
    """One exchange, and then `wall` lines alone."""
    clocks = Clocks()
    for words in ("ask {own}", "take 1 {wall}", "give 1 {wall}", "land 1 {own}"):
        clocks.pass_time(100_000)
        out.write(clocks.line(words.format(own=clocks.own(), wall=clocks.wall())))
    for _ in range(count - 4):
        clocks.pass_time(100_000)
        out.write(clocks.line(f"wall {clocks.own()}"))


BEGINNING = (
    "programme dvb://1.2.3",
    "timeline 1 urn:dvb:css:timeline:pts 1 90000 0",
    "programme dvb://1.2.4",
    "timeline 2 urn:dvb:css:timeline:pts 1 90000 900000",
    "change {wall} 1",
    "open cii",
    "text cii",
    "open ts",
    "up ts",
    "text ts",
)


def both_ends(count, out, tens):
    """Both ends: exchanges, viewers who pause, seek and change the programme, texts in flight, and presentations.

    Of ten lines two are `print`. In one of so many tens the others are five of exchanges, a viewer's command, a line
    that sends a presentation or brings one to the television, and one that brings a text to the companion. In the
    other tens all eight are of exchanges.
    """
    draw = random.Random(1)
    clocks = Clocks()
    for words in BEGINNING:
        out.write(clocks.line(words.format(wall=clocks.wall())))
    requests = datagrams = takes = speed = 1
    programme, commands, states, controls, presentations = 1, 0, 0, 0, 0
    for words in ("ask {own}", "take 1 {wall}", "give 1 {wall}", "land 1 {own}"):
        clocks.pass_time(100_000)
        out.write(clocks.line(words.format(own=clocks.own(), wall=clocks.wall())))
    datagrams = 2
    for number in range(count - len(BEGINNING) - 4):
        clocks.pass_time(30_000 + draw.randrange(900_000))
        wall, own = clocks.wall(), clocks.own()
        kind, is_viewed = number % 10, number // 10 % tens == 0
        if kind in (0, 5):
            words = f"print {own}"
        elif kind == 1 or kind == 6 and not is_viewed:
            requests += 1
            words = f"ask {own}"
        elif kind == 2 or kind == 7 and not is_viewed:
            takes += 1
            words = f"take {requests - draw.randrange(min(requests, 4))} {wall}"
        elif kind == 3:
            datagrams += 2
            words = f"give {takes} {wall}"
        elif kind in (4, 8) or kind == 9 and not is_viewed:
            words = f"land {datagrams - draw.randrange(min(datagrams, 8))} {own}"
        elif kind == 6:
            controls, commands = controls + 1, commands + 1
            if commands % 10 == 1:
                programme, states, speed = 3 - programme, states + 1, 1
                words = f"change {wall} {programme}"
            elif commands % 3 == 1:
                words = f"seek {wall} {draw.randrange(10**13)}"
            else:
                speed = 1 - speed
                words = f"speed {wall} {speed}"
        elif kind == 7 and not presentations:
            presentations += 1
            words = "present 900000 minusinfinity 900000 plusinfinity"
        elif kind == 7:
            presentations -= 1
            words = "up ts"
        elif states and (not controls or commands % 4 == 1):
            states -= 1
            words = "text cii"
        elif controls:
            controls -= 1
            words = "text ts"
        else:
            words = f"wall {own}"
        out.write(clocks.line(words))


def evening(count, out):
    """One line in twenty sends or brings a text, and one in forty is a viewer's command."""
    both_ends(count, out, 4)


def busy(count, out):
    """Two lines in ten send or bring a text, and one is a viewer's command."""
    both_ends(count, out, 1)


SCHEDULES = (("mixed", mixed), ("walls", walls), ("evening", evening), ("busy", busy))


def run(path):
    """Processor seconds of one replay."""
    with open(path, "rb") as schedule, open(os.devnull, "wb") as nothing:
        child = subprocess.Popen([PROGRAM, "replay"], stdin=schedule, stdout=nothing)
        _, status, usage = os.wait4(child.pid, 0)
    if status != 0:
        sys.exit(f"{path}: status {os.waitstatus_to_exitcode(status)}")
    return usage.ru_utime + usage.ru_stime


def peak(path):
    """The greatest resident memory of one replay in kilobytes, read when it has taken the whole schedule."""
    with open(path, "rb") as schedule, open(os.devnull, "wb") as nothing:
        child = subprocess.Popen([PROGRAM, "replay"], stdin=subprocess.PIPE, stdout=nothing)
        shutil.copyfileobj(schedule, child.stdin)
        child.stdin.flush()
        time.sleep(0.2)
        with open(f"/proc/{child.pid}/status", encoding="ascii") as told:
            greatest = next(int(line.split()[1]) for line in told if line.startswith("VmHWM:"))
        child.stdin.close()
        child.wait()
    return greatest


def instructions(path):
    """The instructions of one replay, counted by valgrind."""
    words = ["valgrind", "--tool=callgrind", "--callgrind-out-file=/dev/null", PROGRAM, "replay"]
    with open(path, "rb") as schedule:
        told = subprocess.run(words, stdin=schedule, stdout=subprocess.DEVNULL, stderr=subprocess.PIPE, check=True)
    return int(re.search(rb"Collected : (\d+)", told.stderr).group(1))


def write_schedule(name, count, write, folder):
    path = os.path.join(folder, f"{name}-{count}.schedule")
    with open(path, "w", encoding="ascii") as out:
        out.write(HEADER)
        write(count, out)
    return path


def measure(name, count, write, empty, folder):
    path = write_schedule(name, count, write, folder)
    seconds = min(run(path) for _ in range(5)) - empty
    print(f"{name:7} {count:>9} lines  {seconds / count * 1e9:7.0f} ns a line  peak {peak(path):>7} kB")


def main():
    counts = [int(word) for word in sys.argv[1:]] or [10_000, 100_000, 1_000_000]
    with tempfile.TemporaryDirectory() as folder:
        path = os.path.join(folder, "empty.schedule")
        with open(path, "w", encoding="ascii") as out:
            out.write(HEADER)
        empty = min(run(path) for _ in range(5))
        print(f"header alone  {empty * 1e3:.1f} ms  peak {peak(path)} kB")
        for count in counts:
            for name, write in SCHEDULES:
                measure(name, count, write, empty, folder)
        if shutil.which("valgrind"):
            count, alone = min(counts), instructions(path)
            for name, write in SCHEDULES:
                counted = instructions(write_schedule(name, count, write, folder)) - alone
                print(f"{name:7} {count:>9} lines  {counted / count:7.0f} instructions a line")


if __name__ == "__main__":
    main()
