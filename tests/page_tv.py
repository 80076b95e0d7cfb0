"""A television and a watch over it in one clock, made up line by line: what tests/page.py feeds to the page.

    tests/page_tv.py > examples/evening.lines    the saved evening

The companion's clock shows true time. The television's clock runs 37 ppm fast, and it answers within its word, unless
its clock is set. `truth` tells where its content really is.
"""
import json
import pathlib
import random
import struct
import sys

sys.path.insert(0, str(pathlib.Path(__file__).resolve().parent.parent / "tools"))
from peer import TIMELINE as SELECTOR  # noqa: E402 (the folder comes first)
from television import ERROR, RATE, SECOND, Television, tick_at  # noqa: E402

TURN, F = 10**7, 256_000_000
LOCAL_ERROR, LOCAL_PRECISION = 128_000, 1000
PRECISION, PRECISION_NS = -20, 954  # It is 2^-20 s.
BEGIN = 98_765_432_109_876_543  # The first reading: beyond 2^53, so that no page may read it as a number.
SLOW_RATE = {"unitsPerSecond": 1000, "unitsPerTick": 1}

EVENING = [(8, "pause"), (11, "resume"), (12.4, "news"), (14, "channel"), (18, "off"), (28, "on"), (30, "tell"),
           (33, "garble"), (34.5, "mend"), (36, "stray"), (38, "impossible"), (40, "set clock"), (43.5, "sleep")]


def span(answer, reading):
    """The span of the wall clock that an answer tells at a reading."""
    t1, t2, t3, t4 = answer
    low = (F - ERROR) * (reading - t4 - 2 * LOCAL_PRECISION - 1) // (F + LOCAL_ERROR)
    high = -((F + ERROR) * -(reading - t1 + 2 * LOCAL_PRECISION + 1) // (F - LOCAL_ERROR))
    return t3 - PRECISION_NS - 1 + low, t2 + PRECISION_NS + 1 + high


def disagree(answers, reading):
    """Whether the spans of these answers have no reading of the wall clock in common."""
    spans = [span(answer, reading) for answer in answers]
    return bool(spans) and max(low for low, _ in spans) > min(high for _, high in spans)


def exact(answer, reading):
    """Both ends of that span before they are rounded, each in a unit of its own."""
    t1, t2, t3, t4 = answer
    return ((F + LOCAL_ERROR) * (t3 - PRECISION_NS - 1) + (F - ERROR) * (reading - t4 - 2 * LOCAL_PRECISION - 1),
            (F - LOCAL_ERROR) * (t2 + PRECISION_NS + 1) + (F + ERROR) * (reading - t1 + 2 * LOCAL_PRECISION + 1))


def between(answers, reading):
    """Two answers that contradict each other, as a line tells them."""
    above = min(answers, key=lambda answer: (-exact(answer, reading)[0], answer[3]))
    below = min(answers, key=lambda answer: (exact(answer, reading)[1], answer[3]))
    return [{"error": ERROR, "landed": str(t4), "originate": str(t1), "precision": str(PRECISION_NS),
             "receive": str(t2), "transmit": str(t3)} for t1, t2, t3, t4 in (above, below)]


def carried(wall, error, past):
    """The span of the wall clock so many ns after the reading of a report."""
    low = (F - error) * (past - 2 * LOCAL_PRECISION - 1) // (F + LOCAL_ERROR)
    high = -((F + error) * -(past + 2 * LOCAL_PRECISION + 1) // (F - LOCAL_ERROR))
    return wall[0] - 1 + low, wall[1] + 1 + high


def rate_in(timelines):
    """The rate of the timeline, where a state has these: without it there is the one of presentation time stamps."""
    told = [timeline["timelineProperties"] for timeline in timelines or [] if timeline["timelineSelector"] == SELECTOR]
    return [*told, RATE][0]


class Evening:
    """A watch over a television. `lines` makes its lines, each with its time in ns since the begin."""

    def __init__(self, actions=EVENING, seconds=46, report_every=SECOND, ask_every=SECOND, seed=7):
        self.tv, self.random = Television(), random.Random(seed)
        self.actions = [(round(at * SECOND), name) for at, name in actions]
        self.end, self.report_every, self.ask_every = seconds * SECOND, report_every, ask_every
        self.visit, self.reports, self.time, self.said = 0, 0, -TURN, []
        self.begin_visit()

    def say(self, event, **members):
        line = json.dumps({"event": event, **members}, separators=(",", ":"), sort_keys=True)
        self.said.append((self.time, line))

    def reading(self, time=None):
        return str(BEGIN + (self.time if time is None else time))

    def begin_visit(self):
        self.visit += 1
        self.dialled, self.state, self.control, self.fault = {}, None, None, None
        self.answers, self.flying, self.asked, self.waiting = [], [], None, 0
        self.texts, self.why = [], ""

    # ---- the turns

    def lines(self):
        """All lines in order, as (time, line)."""
        while self.time < self.end:
            due = [flight[0] for flight in self.flying]
            self.time = min([self.time // TURN * TURN + TURN, *due])
            while self.actions and self.actions[0][0] <= self.time:
                getattr(self, "do_" + self.actions.pop(0)[1].replace(" ", "_"))()
            self.turn()
            yield from self.said
            self.said.clear()

    def turn(self):
        if not self.dialled and not self.why:
            self.say("visit", number=self.visit, reading=self.reading())
        if self.time >= (self.reports + 1) * self.report_every:
            self.report()
        self.dial("CII", True)
        self.dial("WC", self.state and self.state["wcUrl"])
        self.dial("TS", self.state and self.state["tsUrl"])
        self.ask()
        self.land()
        self.hear()
        if self.why:
            two = {"between": between(self.answers, self.answers[-1][3])} if self.why == "disagree" else {}
            self.say("end", number=self.visit, why=self.why, **two)
            self.begin_visit()

    def dial(self, service, wanted):
        if not wanted or self.dialled.get(service) == "open":
            return
        outcome = "open" if self.tv.on else "failed"
        if self.dialled.get(service) != outcome:
            self.say("dial", outcome=outcome, service=service, **({"why": "no answer"} if outcome == "failed" else {}))
        self.dialled[service] = outcome
        if outcome == "open" and service != "WC":
            self.texts.append(service)

    def ask(self):
        due = self.asked is None or self.time >= self.asked + self.ask_every
        if self.dialled.get("WC") != "open" or not due:
            return
        self.asked, self.waiting = self.time, self.waiting + 1
        there, back, inside = (round(self.random.expovariate(1 / mean)) + least
                               for mean, least in ((700_000, 400_000), (500_000, 350_000), (60_000, 20_000)))
        if self.tv.on and self.random.random() > 0.08:
            received = self.tv.wall(self.time + there)
            sent = self.tv.wall(self.time + there + inside)
            self.flying.append((self.time + there + inside + back, self.time, received, sent))

    def land(self):
        while self.flying and self.flying[0][0] <= self.time:
            landed, asked, received, sent = self.flying.pop(0)
            answer = (BEGIN + asked, received, sent, BEGIN + landed)
            low, high = span(answer, answer[3])
            self.answers = [*self.answers[-100:], answer]  # One that is older is never the narrowest.
            self.waiting = 0
            self.say("answer", error=ERROR, landed=self.reading(landed), originate=self.reading(asked),
                     precision=str(PRECISION_NS), receive=str(received), transmit=str(sent), type=1,
                     width=str(high - low))
            if disagree(self.answers, answer[3]):
                self.why = "disagree"

    def hear(self):
        while self.texts and not self.why:
            text = self.texts.pop(0)
            if text == "CII":
                self.state = self.tv.state()
                self.say("state", state=self.state)
            elif text == "TS":
                self.control, self.fault = self.tv.control, None
                self.say("control", control=self.control)
            elif text == "garbled":
                self.fault = "Field wallClockTime"
                text = json.dumps(self.tv.control | {"wallClockTime": "soon"}, separators=(",", ":"))
                self.say("control", fault=self.fault, text=text)
            else:
                self.why = text

    # ---- reports

    def report(self):
        self.reports += 1
        cause, detail = self.cause()
        members = {"number": self.reports, "reading": self.reading()}
        if cause:
            self.say("report", cause=cause, detail=detail, **members)
            return
        reading = BEGIN + self.time
        spans = [span(answer, reading) for answer in self.answers]
        wall = min(spans, key=lambda ends: ends[1] - ends[0])
        agreed = max(low for low, _ in spans), min(high for _, high in spans)
        rate = rate_in(self.state["timelines"])
        ticks = sorted(tick_at(end, self.control, rate) for end in wall)
        self.say("report", agreed=[str(end) for end in agreed], error=ERROR, rate=rate,
                 speed=self.control["timelineSpeedMultiplier"], ticks=[str(tick) for tick in ticks],
                 wall=[str(end) for end in wall], **members)

    def cause(self):
        """The first cause that there is no position, with how far the visit came."""
        opened = {service for service, outcome in self.dialled.items() if outcome == "open"}
        state = self.state or {"wcUrl": None, "tsUrl": None}
        closed = "" if "CII" in opened else "CII isn't open"
        if not self.answers:
            far = "" if state["wcUrl"] else "no wcUrl"
            last = f"no response to {self.waiting} requests" if self.waiting else "nothing was asked"
            return "NoAnswer", closed or far or ("" if "WC" in opened else "WC isn't open") or last
        if self.fault:
            return f"Unreadable {self.fault}", ""
        if not self.control:
            far = "" if state["tsUrl"] else "no tsUrl"
            return "NoTimestamp", closed or far or ("no text came" if "TS" in opened else "TS isn't open")
        return "", ""

    # ---- what happens

    def do_pause(self):
        self.tv.show(self.time, self.tv.tick(self.time), 0)
        self.texts.append("TS")

    def do_resume(self):
        self.tv.show(self.time, self.tv.tick(self.time), 1)
        self.texts.append("TS")

    def do_news(self):
        """Another programme, whose timeline has another rate, while both sessions stay open."""
        self.tv.channel, self.tv.rate = self.tv.channel + 1, SLOW_RATE
        self.tv.show(self.time, 300_000, 1)
        self.texts += ["CII", "TS"]

    def do_channel(self):
        self.tv.channel, self.tv.rate = self.tv.channel + 1, RATE
        self.tv.show(self.time, 324_000_000, 1)
        self.texts += ["CII", "closed TS"]

    def do_off(self):
        self.tv.on = False
        self.flying.clear()
        self.texts.append("closed CII")

    def do_on(self):
        self.tv.on, self.tv.told = True, False
        self.tv.set_clock(self.time, -3600 * SECOND)
        self.tv.show(self.time, 324_900_000, 1)

    def do_tell(self):
        self.tv.told = True
        self.texts.append("CII")

    def do_garble(self):
        self.texts.append("garbled")

    def do_mend(self):
        self.texts.append("TS")

    def do_stray(self):
        self.refuse("Unasked", self.time + SECOND, 0)

    def do_impossible(self):
        self.refuse("Impossible", self.time, SECOND)

    def refuse(self, fault, asked, inside):
        """A response to a request of this time, after so long in the television."""
        received = self.tv.wall(self.time)
        times = [part for time in (BEGIN + asked, received, received + inside) for part in divmod(time, SECOND)]
        response = struct.pack(">BBbxI6I", 0, 1, PRECISION, ERROR, *times)
        self.say("refused", bytes=response.hex(), fault=fault, landed=self.reading())

    def do_sleep(self):
        self.answers.clear()
        self.flying.clear()
        self.waiting = 0
        self.say("slept", reading=self.reading())

    def do_set_clock(self):
        self.tv.set_clock(self.time, 2 * SECOND)
        self.tv.show(self.time, 327_000_000, 1)
        self.texts.append("TS")


if __name__ == "__main__":
    for _, made in Evening().lines():
        print(made)
