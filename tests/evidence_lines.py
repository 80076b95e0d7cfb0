"""Lines of a watch beside a made-up television whose clock does what it is told: what tests/evidence.py reads without a
network. And which two answers of some lines contradict each other, by another way than tools/report.py goes."""
import json
import random
from fractions import Fraction

from page_tv import BEGIN, ERROR, F, LOCAL_ERROR, LOCAL_PRECISION, PRECISION_NS, SECOND, span
from peer import TIMELINE

WALL = 1_764_403_200 * SECOND
STATE = {"contentId": "dvb://233a.1004.1044", "contentIdStatus": "final", "mrsUrl": None,
         "presentationStatus": "okay", "protocolVersion": "1.1", "teUrl": None,
         "timelines": [{"timelineProperties": {"unitsPerSecond": 90000, "unitsPerTick": 1},
                        "timelineSelector": TIMELINE}],
         "tsUrl": "ws://192.168.1.20:6678/ts", "wcUrl": "udp://192.168.1.20:6677"}
CONTROL = {"contentTime": "900000", "timelineSpeedMultiplier": 1, "wallClockTime": str(WALL)}
SERVICES = ("CII", "WC", "TS")


def even(ppm, jump=0, when=0):
    """A clock that runs evenly, and is set by so many ns at a moment."""
    return lambda time: WALL + time + time * ppm // 10**6 + (jump if time >= when else 0)


def uneven(ppm, period):
    """A clock that is so many ppm fast for a time, and as slow for the next."""
    def wall(time):
        rest = time % (2 * period)
        return WALL + time + min(rest, 2 * period - rest) * ppm // 10**6
    return wall


class Made:
    """A watch over such a clock. `wrong` makes the times of one answer wrong: at its number, by so many ns."""

    def __init__(self, wall, every=SECOND // 10, loss=0.08, follows=False, seed=3, wrong=(None, 0), names=True):
        self.wall, self.every, self.loss, self.follows = wall, every, loss, follows
        self.random, self.wrong, self.names = random.Random(seed), wrong, names
        self.time, self.count, self.visit, self.lines = 0, 0, 0, []
        self.begin()

    def say(self, event, **members):
        said = {"event": event, **members}
        self.lines.append(json.dumps(said, separators=(",", ":"), sort_keys=True).encode() + b"\n")

    def begin(self):
        self.visit += 1
        self.low = self.high = None
        self.say("visit", number=self.visit, reading=str(BEGIN + self.time))
        for service in SERVICES:
            self.say("dial", outcome="open", service=service)
            if service == "CII":
                self.say("state", state=STATE)
        self.say("control", control=CONTROL)

    def sleep(self):
        self.low = self.high = None
        self.say("slept", reading=str(BEGIN + self.time))

    def make(self, count):
        """So many answers more."""
        end = self.count + count
        while self.count < end:
            self.time += self.every
            there, back = (round(self.random.expovariate(1 / mean)) + 100_000 for mean in (700_000, 500_000))
            if self.random.random() >= self.loss:
                self.answer(there, back)
        return self

    def answer(self, there, back):
        self.count += 1
        off = self.wrong[1] if self.count == self.wrong[0] else 0
        t1, t2 = BEGIN + self.time, self.wall(self.time + there) + off
        t3, t4 = self.wall(self.time + there + 30_000) + off, BEGIN + self.time + there + 30_000 + back
        kinds = [(2, t2), (3, t3)] if self.follows else [(1, t3)]
        for kind, transmit in kinds:
            low, high = span((t1, t2, transmit, t4), t4)
            self.say("answer", error=ERROR, landed=str(t4), originate=str(t1), precision=str(PRECISION_NS),
                     receive=str(t2), transmit=str(transmit), type=kind, width=str(high - low))
            if self.disagrees((t1, t2, transmit, t4)):
                self.end()
                return

    def disagrees(self, answer):
        """Keeps the answers that say the most, with the numbers that don't depend on the reading."""
        t1, t2, t3, t4 = answer
        low = Fraction(t3) - Fraction(F - ERROR, F + LOCAL_ERROR) * t4
        high = Fraction(t2) - Fraction(F + ERROR, F - LOCAL_ERROR) * t1
        if self.low is None or low > self.low[0]:
            self.low = low, answer
        if self.high is None or high < self.high[0]:
            self.high = high, answer
        return span(self.low[1], t4)[0] > span(self.high[1], t4)[1]

    def end(self):
        pair = [{"error": ERROR, "landed": str(t4), "originate": str(t1), "precision": str(PRECISION_NS),
                 "receive": str(t2), "transmit": str(t3)} for t1, t2, t3, t4 in (self.low[1], self.high[1])]
        more = {"between": pair} if self.names else {}
        self.say("end", number=self.visit, why="disagree", **more)
        self.begin()


def pairs(lines):
    """The two answers of each visit that can't both be true by the most, of those whose visits ended by it: their
    originate, receive and transmit values, at the landing of the last one. All of them are compared, exactly."""
    found, answers, promised = [], [], {}
    for said in map(json.loads, lines):
        if said["event"] in ("visit", "slept"):
            answers, promised = [], {}
        elif said["event"] == "answer":
            t1, t2, t3, landed = (int(said[name]) for name in ("originate", "receive", "transmit", "landed"))
            if said["type"] == 2:
                promised.setdefault((t1, t2), landed)
            answers.append((t1, t2, t3, promised.get((t1, t2), landed) if said["type"] == 3 else landed, landed))
        elif said["event"] == "end" and said["why"] == "disagree":
            reading = answers[-1][4]
            first = max(answers, key=lambda each: (exact(each, reading)[0], -answers.index(each)))
            second = min(answers, key=lambda each: (exact(each, reading)[1], answers.index(each)))
            found.append((first[:3], second[:3]))
    return found


def exact(answer, reading):
    """The ends that an answer allows, not rounded."""
    t1, t2, t3, t4 = answer[:4]
    return (t3 - PRECISION_NS - 1 + Fraction((F - ERROR) * (reading - t4 - 2 * LOCAL_PRECISION - 1), F + LOCAL_ERROR),
            t2 + PRECISION_NS + 1 + Fraction((F + ERROR) * (reading - t1 + 2 * LOCAL_PRECISION + 1), F - LOCAL_ERROR))
