"""What the lines of `watch` have to be: their form and their order, and what they say, against a television whose truth
is known. tests/live_watch.py is made of it."""
import collections
import json
import pathlib
import re
import sys

from page_tv import (ERROR, F, LOCAL_ERROR, LOCAL_PRECISION, PRECISION_NS, SELECTOR, between, disagree, rate_in, span,
                     tick_at)

sys.path.append(str(pathlib.Path(__file__).resolve().parent.parent / "examples"))
from carry import Television as Carried

LAG = 5_000_000_000  # Within this time a control timestamp that was said has come, also on a busy machine.
SERVICES = ("CII", "WC", "TS")
STATE = ("contentId", "contentIdStatus", "mrsUrl", "presentationStatus", "protocolVersion", "teUrl", "timelines",
         "tsUrl", "wcUrl")
REFUSED = "Undecodable (Length|Version|MessageType|Precision|Error|Nanoseconds)|Unasked|NotAnAnswer|Impossible"
UNREAD = "NotJson|NotObject|Fractional|(Field|Range) (contentTime|timelineSpeedMultiplier|wallClockTime)"
CAUSE = f"NoAnswer|NoTimestamp|SessionClosed|Unreadable ({UNREAD})|Unavailable|NoRate"
CII_TEXT = "CII text [1-9][0-9]*: (not json|not object|field [a-zA-Z]+)"
WHY = "closed (CII|TS)|(moved|bad) (wc|ts)Url"
UNREACHED = "refused|no such host|no answer|HTTP status [0-9]+|no WebSocket|no permission|no room|other"
NO_ANSWER = f"nothing was asked|no response to [1-9][0-9]* requests|the last datagram was refused: ({REFUSED})"

CHECKS = {
    "form": "each line is compact JSON of its form, its members in order",
    "visits": "visits are numbered in order, and each begins where the last one ended",
    "reports": "reports are numbered in order, and made when they are due",
    "dials": "a dial is told where its outcome differs from the last one, or why it failed",
    "texts": "each text that can't be read is told by its front, as the television sent it",
    "states": "each state is one that the television told, in order",
    "controls": "each control timestamp is one that the television told",
    "answers": "each answer is one that the television sent, with the width of its span",
    "disagree": "a visit whose answers disagree ends, and no other ends so",
    "between": "it names two answers of the visit, of which the one lies wholly above the other",
    "ends": "each end has a reason, by the lines before it",
    "causes": "each cause and detail is the first that holds",
    "intervals": "each interval comes from the narrowest answer and the last control timestamp",
    "agreed": "what all answers allow is told with it",
    "truth": "each interval contains the truth",
    "carried": "each interval contains the truth when examples/carry.py carries it on",
}


# ---- the form of a line

def digits(value):
    return isinstance(value, str) and re.fullmatch("0|[1-9][0-9]*", value) is not None


def signed(value):
    return isinstance(value, str) and re.fullmatch("0|-?[1-9][0-9]*", value) is not None


def whole(low, high):
    return lambda value: type(value) is int and low <= value <= high


def words(pattern):
    return lambda value: isinstance(value, str) and re.fullmatch(pattern, value) is not None


def front(value):
    return isinstance(value, str) and len(value.encode()) <= 1000


def both(holds):
    return lambda value: isinstance(value, list) and len(value) == 2 and all(map(holds, value)) \
        and int(value[0]) <= int(value[1])


def members(**forms):
    return lambda value: isinstance(value, dict) and set(value) == set(forms) \
        and all(holds(value[name]) for name, holds in forms.items())


def text_or_null(value):
    return value is None or isinstance(value, str)


UNITS = members(unitsPerSecond=whole(1, 10**9), unitsPerTick=whole(1, 10**9))
TIMELINES = members(timelineSelector=lambda value: isinstance(value, str), timelineProperties=UNITS)
COUNT = whole(1, 2**53)
TOLD = dict.fromkeys(STATE, text_or_null) | {
    "timelines": lambda value: value is None or isinstance(value, list) and all(map(TIMELINES, value))}
CONTROL = members(contentTime=signed, timelineSpeedMultiplier=whole(-64, 64), wallClockTime=digits)
NO_CONTROL = dict.fromkeys(("contentTime", "timelineSpeedMultiplier", "wallClockTime"))
NUMBERED = {"originate": digits, "receive": digits, "transmit": digits, "landed": digits, "precision": digits}
EXCHANGE = members(error=whole(0, 25_600_000), **NUMBERED)
FORMS = {
    "visit": [{"number": COUNT, "reading": digits}],
    "dial": [{"outcome": words("open"), "service": words("|".join(SERVICES))},
             {"outcome": words("failed"), "service": words("|".join(SERVICES)), "why": words(UNREACHED)}],
    "state": [{"state": members(**TOLD)}],
    "control": [{"control": lambda value: CONTROL(value) or value == NO_CONTROL},
                {"fault": words(UNREAD), "text": front}],
    "answer": [{"error": whole(0, 25_600_000), "landed": digits, "originate": digits, "precision": digits,
                "receive": digits, "transmit": digits, "type": whole(1, 3), "width": digits}],
    "refused": [{"bytes": words("([0-9a-f]{2}){0,64}"), "fault": words(REFUSED), "landed": digits}],
    "slept": [{"reading": digits}],
    "report": [{"agreed": both(signed), "error": whole(0, 25_600_000), "number": COUNT, "rate": UNITS,
                "reading": digits, "speed": whole(-64, 64), "ticks": both(signed), "wall": both(signed)},
               {"cause": words(CAUSE), "detail": lambda value: isinstance(value, str), "number": COUNT,
                "reading": digits}],
    "end": [{"number": COUNT, "why": words(WHY)}, {"number": COUNT, "text": front, "why": words(CII_TEXT)},
            {"between": lambda value: len(value) == 2 and all(map(EXCHANGE, value)), "number": COUNT,
             "why": words("disagree")}],
}


def read(line):
    """What a line says; None where it hasn't the form of its event."""
    try:
        said = json.loads(line)
    except ValueError:
        return None
    if not isinstance(said, dict) or said.get("event") not in FORMS:
        return None
    compact = json.dumps(said, separators=(",", ":"), sort_keys=True, ensure_ascii=False)
    rest = {name: value for name, value in said.items() if name != "event"}
    fits = any(members(**form)(rest) for form in FORMS[said["event"]])
    return said if fits and compact.encode() + b"\n" == line else None


# ---- what the lines of a visit come to

def scaled_width(answer, reading):
    """The width of an answer's span, not rounded, times a constant. With equal errors all grow alike."""
    t1, t2, t3, t4 = answer
    low = (F + LOCAL_ERROR) * (t3 - PRECISION_NS - 1) + (F - ERROR) * (reading - t4 - 2 * LOCAL_PRECISION - 1)
    high = (F - LOCAL_ERROR) * (t2 + PRECISION_NS + 1) + (F + ERROR) * (reading - t1 + 2 * LOCAL_PRECISION + 1)
    return high * (F + LOCAL_ERROR) - low * (F - LOCAL_ERROR)


def sent(text):
    """The front of a text as a television sends it."""
    data = text if isinstance(text, bytes) else json.dumps(text).encode()
    return data.decode(errors="replace").encode()[:1000].decode(errors="ignore")


def times_of(exchange):
    return tuple(int(exchange[name]) for name in ("originate", "receive", "transmit", "landed"))


class Visit:
    """What the lines of a visit have told so far."""

    def __init__(self, number):
        self.number, self.ended, self.session = number, False, None
        self.dials, self.whys, self.states, self.control = {}, {}, [], None
        self.answers, self.promised, self.refused, self.disagrees = [], {}, None, False
        self.closed = False  # Whether a report said that CSS-TS is closed.

    def forget(self):
        self.answers, self.promised, self.refused = [], {}, None

    def is_open(self, service):
        return self.dials.get(service) == "open"

    def says(self, name):
        return bool(self.states) and self.states[-1][name] is not None

    def rate(self):
        """The rate of the timeline, by the last state."""
        return rate_in(self.states[-1]["timelines"] if self.states else None)

    def cause(self):
        """The cause of a report that is due now, and the pattern of its detail; none where it has ticks."""
        first = "" if self.is_open("CII") else "CII isn't open"
        if not self.answers:
            second = "" if self.says("wcUrl") else "no wcUrl"
            return "NoAnswer", first or second or ("" if self.is_open("WC") else "WC isn't open") or NO_ANSWER
        if self.control is None:
            second = "" if self.says("tsUrl") else "no tsUrl"
            return "NoTimestamp", first or second or ("no text came" if self.is_open("TS") else "TS isn't open")
        if self.closed:
            return "SessionClosed", ""
        if isinstance(self.control, str):
            return f"Unreadable {self.control}", ""
        return ("Unavailable", self.missing()) if self.control["contentTime"] is None else None

    def missing(self):
        """The pattern of what a report says of the timelines, where the wanted one isn't among them."""
        listed = [one["timelineSelector"] for one in (self.states[-1]["timelines"] if self.states else None) or []]
        return "" if SELECTOR in listed else "the set lists " + re.escape(", ".join(listed[:8]) or "no timeline")


class Story:
    """Reads the lines of a run one by one, and notes what is wrong."""

    def __init__(self, tv, every):
        self.tv, self.every = tv, every
        self.wrong, self.count = collections.defaultdict(list), collections.Counter()
        self.visit, self.begun, self.last, self.number, self.sessions = None, None, "", 0, 0
        self.visits, self.ends, self.reports, self.refused = [], [], [], []
        self.carried = Carried()

    def expect(self, what, holds, line):
        self.count[what] += 1
        if not holds:
            self.wrong[what].append(line)

    def take(self, line):
        said = read(line)
        self.expect("form", said is not None, line)
        if said is None:
            return
        event, visit = said["event"], self.visit
        in_order = (visit is None or visit.ended) == (event == "visit")
        self.expect("visits", in_order, said)
        if not in_order and visit is None:
            return
        if visit and visit.disagrees and not visit.ended and event != "end":
            self.expect("disagree", False, said)
        getattr(self, "on_" + event)(visit, said)
        self.carried.take(said)
        if event in ("report", "control", "state"):
            self.carry_on(self.visit, said)
        self.last = event

    def tell(self, check):
        for what, name in CHECKS.items():
            wrong = self.wrong[what]
            check(name, self.count[what] and not wrong, wrong[:2] if wrong else f"{self.count[what]} times")

    # ---- by events

    def on_visit(self, _, said):
        self.visit = Visit(said["number"])
        self.begun = int(said["reading"]) if self.begun is None else self.begun
        self.visits.append(int(said["reading"]))
        self.expect("visits", said["number"] == len(self.visits), said)

    def on_dial(self, visit, said):
        service, why = said["service"], said.get("why")
        same = visit.dials.get(service) == said["outcome"] and visit.whys.get(service) == why
        self.expect("dials", not same and not visit.is_open(service), said)
        visit.dials[service], visit.whys[service] = said["outcome"], why
        if (said["service"], said["outcome"]) == ("CII", "open"):
            visit.session, self.sessions = self.sessions, self.sessions + 1

    def on_state(self, visit, said):
        told = self.tv.sessions[visit.session] if visit.session is not None else []
        visit.states.append(said["state"])
        at = len(visit.states)
        self.expect("states", at <= len(told) and told[at - 1] == said["state"], said)

    def on_control(self, visit, said):
        visit.control = said.get("control") or said["fault"]
        if "fault" in said:
            self.expect("texts", said["text"] in (sent(text) for _, text, fault in self.tv.controls if fault), said)
        self.expect("controls", visit.is_open("TS") and any(
            visit.control == (fault or (text if text["contentTime"] else NO_CONTROL))
            for _, text, fault in self.tv.controls), said)

    def on_answer(self, visit, said):
        t1, t2, t3, landed = (int(said[name]) for name in ("originate", "receive", "transmit", "landed"))
        kind, t4 = said["type"], landed
        if kind == 2:
            visit.promised.setdefault((t1, t2), landed)
        if kind == 3:  # It counts from the landing of its response.
            t4 = visit.promised.get((t1, t2), landed)
        visit.answers.append((t1, t2, t3, t4))
        low, high = span(visit.answers[-1], landed)
        self.expect("answers", (kind, t1, t2, t3) in self.tv.sent and said["error"] == ERROR
                    and said["precision"] == str(PRECISION_NS) and said["width"] == str(high - low), said)
        visit.disagrees, visit.refused, visit.landed = disagree(visit.answers, landed), None, landed

    def on_refused(self, visit, said):
        visit.refused = said["fault"]
        self.refused.append(said["fault"])

    def on_slept(self, visit, _):
        visit.forget()

    def on_end(self, visit, said):
        why, visit.ended = said["why"], True
        self.ends.append(why)
        text = re.match("CII text ([0-9]+)", why)
        after = {"closed CII": visit.is_open("CII"), "closed TS": visit.is_open("TS"), "bad wcUrl": visit.says("wcUrl"),
                 "bad tsUrl": visit.says("tsUrl"), "disagree": self.last == "answer"}
        holds = int(text[1]) == len(visit.states) + 1 if text else after.get(why, bool(visit.states))
        self.expect("ends", holds and said["number"] == visit.number, said)
        if text and why.endswith("not object"):
            self.expect("texts", said["text"] == "[]", said)
        self.expect("disagree", visit.disagrees == (why == "disagree"), said)
        if why == "disagree":
            above, below = (times_of(one) for one in said["between"])
            wanted = [times_of(one) for one in between(visit.answers, visit.landed)]
            apart = span(above, visit.landed)[0] > span(below, visit.landed)[1]
            self.expect("between", [above, below] == wanted and apart, said)

    def on_report(self, visit, said):
        self.number += 1
        reading = int(said["reading"])
        in_order = said["number"] == self.number and (not self.reports or reading > self.reports[-1][0])
        self.expect("reports", in_order and reading >= self.begun + self.number * self.every, said)
        if said.get("cause") == "SessionClosed":  # No line tells it before.
            visit.closed = any(self.visits[-1] < end < reading for end in self.tv.ts_ends)
        cause = visit.cause()
        known = "ticks" in said
        if known and cause is None:
            self.known(visit, said, reading)
        elif known or cause is None:
            self.expect("causes", False, said)
        else:
            holds = said["cause"] == cause[0] and re.fullmatch(cause[1], said["detail"])
            if holds and "refused" in said["detail"]:
                holds = said["detail"].endswith(visit.refused or "no")
            self.expect("causes", bool(holds), said)
        self.reports.append((reading, visit.number, known and not self.is_exempt(visit, reading)))

    # ---- reports with ticks

    def is_exempt(self, visit, reading):
        """Whether the television's clock was set since an answer of the visit: no companion can know before the next
        one lands."""
        return any(answer[0] < jump <= reading for jump, _ in self.tv.begins[1:] for answer in visit.answers)

    def known(self, visit, said, reading):
        control, rate, wall = visit.control, visit.rate(), [int(end) for end in said["wall"]]
        ticks, agreed = [int(tick) for tick in said["ticks"]], [int(end) for end in said["agreed"]]
        spans = [span(answer, reading) for answer in visit.answers]
        self.expect("agreed", agreed == [max(low for low, _ in spans), min(high for _, high in spans)], said)
        best = min(visit.answers, key=lambda answer: scaled_width(answer, reading))
        self.expect("intervals", tuple(wall) == span(best, reading) and said["error"] == ERROR and said["rate"] == rate
                    and said["speed"] == control["timelineSpeedMultiplier"]
                    and ticks == sorted(tick_at(end, control, rate) for end in wall), said)
        if self.is_exempt(visit, reading):
            return
        true = self.tv.wall(reading)
        self.expect("truth", wall[0] <= agreed[0] <= true <= agreed[1] <= wall[1]
                    and ticks[0] <= tick_at(true, control, rate) <= ticks[1]
                    and control in self.tv.said(reading - LAG, reading), said)

    def carry_on(self, visit, said):
        """The last report is carried on to later readings, by what the visit was told since."""
        for part in (1, 2, 3, 9):
            report = self.carried.report
            later = int(report["reading"]) + self.every * part // 3 if report else 0
            ticks = self.carried.position(later)
            if ticks is None or self.is_exempt(visit, later):
                continue
            low, high = self.carried.wall(later)
            true = self.tv.wall(later)
            holds = low <= true <= high and ticks[0] <= tick_at(true, visit.control, visit.rate()) <= ticks[1]
            self.expect("carried", holds, said)
