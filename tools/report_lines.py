"""What the lines of a watch say, read once and kept apart by what tools/report.py tells of them."""
import collections
import json

from answers import Part, add_line

SECOND = 10**9
TIMES = ("originate", "receive", "transmit")
KIND = {1: 1, 2: 2, 3: 3}  # A response, a response that a follow-up will follow, and a follow-up.
# Something that happened: the visit, the reading, None where the line has none and none came before; what it was, and
# the bytes or the text.
Event = collections.namedtuple("Event", "visit reading what shown")
# How wide the wall clock was at a report, by its answer and by all answers together; None where that isn't told.
Width = collections.namedtuple("Width", "reading width agreed")


class Stretch(Part):
    """The answers of a visit since its last sleep, and how the visit ended, where it ended in this stretch."""

    def __init__(self, visit, index):
        super().__init__(visit)
        self.index, self.unanswered, self.why, self.between, self.exchanges = index, 0, None, None, None

    def kept(self):
        """Its answers in the order in which they count, as `Exchange`s. All lines have to be read by then."""
        if self.exchanges is None:
            self.exchanges = [exchange for _, _, (_, _, exchange) in self.answers()]
            for counted, _, (exponent, _, exchange) in self.found:
                exchange.t4, exchange.exponent = counted, exponent
        return self.exchanges


class Exchange:
    """An answer with its numbers: originate, receive and transmit; the reading from which it counts; the greatest
    distance of the set's readings from its clock, in nanoseconds, and the exponent of it; the declared error."""

    __slots__ = ("t1", "t2", "t3", "t4", "landed", "precision", "exponent", "error", "kind", "width")

    def __init__(self, said):
        self.t1, self.t2, self.t3 = int(said["originate"]), int(said["receive"]), int(said["transmit"])
        self.t4 = self.landed = int(said["landed"])
        self.precision, self.exponent, self.error = int(said["precision"]), None, int(said["error"])
        self.kind, self.width = KIND[said["type"]], int(said["width"])


class Run:
    """What all lines come to."""

    def __init__(self):
        self.lines = self.garbled = self.visits = self.watches = self.reports = self.known = 0
        self.first = self.last = self.state = None
        self.greatest, self.pending = 0, set()
        self.kinds, self.causes, self.dials = (collections.Counter() for _ in range(3))
        self.stretches, self.faults, self.ends, self.slept, self.widths = [], [], [], [], []
        self.addresses = {"wcUrl": {}, "tsUrl": {}, "timelines": {}}
        self.texts, self.changed, self.nulls, self.speeds = (collections.Counter() for _ in range(4))

    def take(self, line):
        self.lines += 1
        try:
            said = json.loads(line)
            event = getattr(self, "on_" + said["event"])
            reading = said.get("landed", said.get("reading"))
            if reading is not None:
                self.last = within(int(reading))
                self.first = self.last if self.first is None else self.first
                self.greatest = max(self.greatest, self.last)
            event(said)
        except (ValueError, KeyError, TypeError, AttributeError, RecursionError):
            self.garbled += 1

    def stretch(self):
        if not self.stretches:
            self.begin(0)
        return self.stretches[-1]

    def begin(self, visit):
        self.stretches.append(Stretch(visit, len(self.stretches)))

    def note(self, place, what, shown=""):
        place.append(Event(self.stretch().visit, self.last, what, shown))

    # ---- by events

    def on_visit(self, said):
        self.watches += said["number"] == 1
        self.visits, self.state = self.visits + 1, None
        self.flush()
        self.begin(said["number"])

    def on_slept(self, said):
        self.begin(self.stretch().visit)
        self.note(self.slept, f"the machine slept before the reading {said['reading']}")

    def on_dial(self, said):
        """A dial has no answer until its handshake is done: that counts only where the session never opens."""
        if said["outcome"] == "open":
            self.pending.discard(said["service"])
        elif said["why"] == "no answer":
            self.pending.add(said["service"])
        else:
            self.dials[said["service"], said["why"]] += 1

    def flush(self):
        self.dials.update((service, "no answer") for service in self.pending)
        self.pending.clear()

    def on_state(self, said):
        state, before = said["state"], self.state
        for name in ("wcUrl", "tsUrl"):
            if state[name] is not None:
                self.addresses[name][state[name]] = None
        if state["timelines"] is not None:
            self.addresses["timelines"][listed(state["timelines"])] = None
        changed = [name for name in state if before and state[name] != before[name]]
        self.texts["first" if before is None else "changes" if changed else "same"] += 1
        self.changed.update(changed)
        self.nulls.update(name for name in state if state[name] is None)
        self.state = state

    def on_control(self, said):
        if "fault" in said:
            self.texts["unread"] += 1
            self.note(self.faults, f"CSS-TS: {said['fault']}", said.get("text", ""))
        elif said["control"]["contentTime"] is None:
            self.texts["unavailable"] += 1
        else:
            self.texts["control"] += 1
            self.speeds[said["control"]["timelineSpeedMultiplier"]] += 1

    def on_answer(self, said):
        add_line(self.stretch(), said, Exchange(said))
        self.kinds[said["type"]] += 1

    def on_refused(self, said):
        self.note(self.faults, f"CSS-WC: {said['fault']}", said.get("bytes", ""))

    def on_report(self, said):
        self.reports += 1
        if "ticks" in said:
            self.known += 1
            wall, agreed = said["wall"], said.get("agreed")
            width = int(wall[1]) - int(wall[0])
            self.widths.append(Width(self.last, width, int(agreed[1]) - int(agreed[0]) if agreed else None))
            return
        cause, detail = said["cause"], said["detail"]
        self.causes[f"{cause}: {detail}" if detail else cause] += 1
        self.widths.append(Width(self.last, None, None))
        if detail.startswith("no response to ") and not self.stretch().found:
            self.stretch().unanswered = int(detail.split()[3])

    def on_end(self, said):
        why, pair = str(said["why"]), said.get("between")
        self.stretch().why = why
        self.stretch().between = pair and [tuple(int(one[name]) for name in TIMES) for one in pair]
        self.note(self.ends, why)
        if why.startswith("CII text"):
            self.note(self.faults, why.replace("CII", "CSS-CII", 1), said.get("text", ""))


def within(reading):
    if not 0 <= reading < 2**32 * SECOND:
        raise ValueError("out of range")
    return reading


def listed(timelines):
    """The timelines of a state in words."""
    return ", ".join(f"{one['timelineSelector']} at {one['timelineProperties']['unitsPerSecond']}"
                     f"/{one['timelineProperties']['unitsPerTick']} ticks a second" for one in timelines)


def read(file):
    """The run that a file's lines tell. The file gives bytes; what is no UTF-8 is garbled."""
    run = Run()
    for line in file:
        run.take(line)
    run.flush()
    return run
