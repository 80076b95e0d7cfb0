#!/usr/bin/env python3
"""Draws a run as a picture: each report's interval over time, how wide it is, what was lost, and where the truth is.

    ./css replay < SCHEDULE | docs/plot.py SCHEDULE > PICTURE.svg    a replay; --companion K, where there are several
    ./css companion .. | docs/plot.py > PICTURE.svg                      a live run, with a report each second
    ./css companion .. | docs/plot.py --every NS > PICTURE.svg           .. and with a report each NS nanoseconds

The reports come on standard input. The schedule says at which true time each line happens, and which datagrams never
came. The upper panel has the position. The lower one has each interval: around the truth in a replay, and around its
own middle in a live run, which doesn't know the truth. Grey is where there was no interval, with the cause. The status
is 1 where there is nothing to draw.
"""
import argparse
import sys
from math import ceil, floor
from html import escape
from typing import NamedTuple, Optional

SECOND = 10**9
WIDTH, LEFT, RIGHT = 900, 96, 24
POSITIONS = (84, 196)
INTERVALS = (244, 424)
CAME, LOST, BOTTOM = 462, 486, 510
HEIGHT = 566
TRUTH, INTERVAL, GONE, INK, PALE = "#1f6feb", "#2e9e6b", "#d1382c", "#1f2933", "#8b98a5"


class Report(NamedTuple):
    """A report: its time in seconds, and its ends with the truth if that is known; or the cause why there are none."""

    time: float
    ends: Optional[tuple]
    truth: Optional[float]
    cause: str


class Run(NamedTuple):
    """All that is drawn. Each of the lists beside the reports has times in seconds."""

    reports: list
    came: list
    lost: list
    cues: list
    unit: str


# ---- what is read


def report_of(words, time):
    """The report of a printed line, or None where the line is another one."""
    if words[1:2] == ["none"]:
        return Report(time, None, None, words[2])
    if words[1:2] in (["ticks"], ["wall"]):
        unit = 1000 if words[1] == "wall" else 1
        truth = int(words[5]) / unit if len(words) > 5 else None
        return Report(time, (int(words[2]) / unit, int(words[3]) / unit), truth, "")
    return None


def read_reports(lines, time_of):
    """The reports of the lines, the cues beside them, and the unit. Where none tells ticks, the spans of the wall clock
    take their place."""
    told, cues = {"ticks": [], "wall": []}, []
    time = 0.0
    for words in map(str.split, lines):
        if words[:1] == ["cue"] and len(words) == 3:
            cues.append((time, f"{words[1]} {words[2]}"))
        elif len(words) > 2 and words[0].isdigit() and time_of(int(words[0])) is not None:
            time = time_of(int(words[0]))
            report = report_of(words, time)
            if report:
                told["wall" if words[1] == "wall" else "ticks"].append(report)
    if any(report.ends for report in told["ticks"]):
        return told["ticks"], cues, "ticks"
    return told["wall"], cues, "µs"


class Traffic:
    """The datagrams of a schedule: requests, takes and answers by their numbers, each request and answer with its time
    and its companion, and when each answer of one companion first landed."""

    def __init__(self, follows, who):
        self.follows, self.who, self.latest = follows, who, -1
        self.asked, self.takes, self.given = [], [], []
        self.answered, self.landed = set(), {}

    def line(self, time, owner, verb, numbers):
        if verb == "ask":
            self.asked.append((time, owner))
        elif verb == "take":
            promised = self.follows and numbers[1] > self.latest
            self.latest = max(self.latest, numbers[1])
            self.takes.append((numbers[0], promised))
        elif verb == "give":
            request, promised = self.takes[numbers[0] - 1]
            self.answered.add(request)
            self.given += [(time, self.asked[request - 1][1])] * (2 if promised else 1)
        elif verb == "land" and owner == self.who:
            self.landed.setdefault(numbers[0], time)

    def came(self):
        return list(self.landed.values())

    def missing(self, sent, seen):
        """When the companion's own were sent that weren't seen."""
        return [time for number, (time, owner) in enumerate(sent, 1) if owner == self.who and number not in seen]

    def lost(self):
        """When each request was sent that got no answer, and each answer that didn't land."""
        return self.missing(self.asked, self.answered) + self.missing(self.given, self.landed)


def owned(words, version):
    """The companion of a line, and its words without the companion's number."""
    return (1, words) if version == 1 else (int(words[2]), words[:2] + words[3:])


def read_schedule(lines, who):
    """The time of each line of a companion, and the datagrams."""
    header = lines[0].split()
    version = int(header[1])
    opening = 1 if version == 1 else 1 + int(header[5])
    traffic = Traffic(header[2] == "follow", who)
    times = {}
    for number, line in enumerate(lines[opening:], opening + 1):
        owner, words = owned(line.split(), version)
        time = int(words[0]) / SECOND
        if owner == who:
            times[number] = time
        if words[3] in ("ask", "take", "give", "land"):
            traffic.line(time, owner, words[3], [int(word) for word in words[4:]])
    return times, traffic


def read_run(options, lines):
    if options.schedule is None:
        reports, cues, unit = read_reports(lines, lambda number: number * options.every / SECOND)
        return Run(reports, [], [], cues, unit)
    with open(options.schedule, encoding="ascii") as file:
        times, traffic = read_schedule(file.read().splitlines(), options.companion)
    reports, cues, unit = read_reports(lines, times.get)
    return Run(reports, traffic.came(), traffic.lost(), cues, unit)


# ---- scales


class Scale:
    """Where a value stands between two places of the picture."""

    def __init__(self, low, high, start, end):
        self.low, self.high = low, high if high > low else low + 1
        self.start, self.end = start, end

    def at(self, value):
        return round(self.start + (value - self.low) / (self.high - self.low) * (self.end - self.start), 1)

    def marks(self, about):
        """Round values, some ABOUT of them."""
        step = 10 ** (len(str(max(1, int((self.high - self.low) / about)))) - 1)
        step = next(step * each for each in (1, 2, 5, 10) if (self.high - self.low) / (step * each) <= about)
        first = ceil(self.low / step) * step
        return range(first, floor(self.high) + 1, step)


class Times(Scale):
    """The times of a run, in seconds, or in milliseconds where it is shorter than three seconds."""

    def __init__(self, first, last, name):
        self.factor, unit = (1, "seconds") if last - first >= 3 else (1000, "ms")
        super().__init__(first * self.factor, last * self.factor, LEFT + 6, WIDTH - RIGHT - 6)
        self.name = f"{name}, in {unit}"

    def at(self, value):
        return super().at(value * self.factor)

    def at_mark(self, mark):
        return super().at(mark)


def offsets(report):
    """The ends of an interval, from the truth on; in a live run from its middle on."""
    low, high = report.ends
    base = report.truth if report.truth is not None else (low + high) / 2
    return low - base, high - base


def runs_without(reports):
    """From when to when there was no interval, with the cause."""
    for here, after in zip(reports, [*reports[1:], None]):
        if here.ends is None:
            yield here.time, after.time if after else None, here.cause


# ---- what is drawn


def text(x, y, words, **more):
    attributes = "".join(f' {name.replace("_", "-")}="{value}"' for name, value in more.items())
    return f'<text x="{x}" y="{y}"{attributes}>{escape(words)}</text>'


def rule(x1, y1, x2, y2, colour, width=1):
    return f'<path d="M{x1} {y1} L{x2} {y2}" stroke="{colour}" stroke-width="{width}"/>'


def frame(y, name, top, bottom):
    """The marks of a panel on its left, and its name above."""
    yield text(LEFT, top - 10, name, font_weight="bold")
    for value in y.marks(5):
        yield rule(LEFT, y.at(value), WIDTH - RIGHT, y.at(value), "#dde3ea")
        yield text(LEFT - 8, y.at(value) + 4, f"{value:,}", text_anchor="end", font_size=12)
    yield rule(LEFT, top, LEFT, bottom, PALE)


def gaps(reports, x):
    """Where there was no interval, through both panels."""
    for start, end, _ in runs_without(reports):
        for top, bottom in (POSITIONS, INTERVALS):
            right = x.at(end) if end is not None else WIDTH - RIGHT
            yield (f'<rect x="{x.at(start)}" y="{top}" width="{max(right - x.at(start), 2):.1f}" '
                   f'height="{bottom - top}" fill="#e3e7ec"/>')


def causes(reports, x):
    """Why there was no interval, once for each run of one cause, from the bottom up."""
    before = None
    for start, end, cause in runs_without(reports):
        if before != (cause, start):
            place = (min(round(x.at(start) + 11, 1), WIDTH - RIGHT - 3), INTERVALS[1] - 6)
            yield text(*place, cause, transform=f"rotate(-90 {place[0]} {place[1]})", font_size=12, fill="#52606d")
        before = (cause, end)


def legend(true):
    """What the colours mean."""
    shown = [("reported interval", INTERVAL), ("the truth", TRUTH)] if true else [("reported interval", INTERVAL)]
    right = WIDTH - RIGHT
    for words, colour in reversed(shown):
        yield text(right, 40, words, text_anchor="end", font_size=13)
        right -= 6.6 * len(words) + 16
        yield f'<rect x="{right:.1f}" y="29" width="10" height="12" fill="{colour}"/>'
        right -= 20


def bars(reports, x, y, ends_of):
    """Each interval, as a bar that is at least six units high, so that an exact one is seen too."""
    thick = max(1, min(4, (WIDTH - LEFT - RIGHT) / len(reports) * 0.6))
    for report in reports:
        if report.ends is not None:
            low, high = ends_of(report)
            top = min(y.at(high), y.at((low + high) / 2) - 3)
            height = max(y.at(low) - y.at(high), 6)
            left = x.at(report.time) - thick / 2
            yield f'<rect x="{left:.1f}" y="{top:.1f}" width="{thick:.1f}" height="{height:.1f}"/>'


def position_panel(run, x):
    ends = [end for report in run.reports if report.ends for end in report.ends]
    y = Scale(min(ends), max(ends), POSITIONS[1], POSITIONS[0])
    yield from frame(y, f"Position, in {run.unit}", *POSITIONS)
    yield f'<g fill="{INTERVAL}">' + "".join(bars(run.reports, x, y, lambda report: report.ends)) + "</g>"
    for report in run.reports:
        if report.truth is not None and report.ends:
            yield f'<circle cx="{x.at(report.time)}" cy="{y.at(report.truth)}" r="1.5" fill="{TRUTH}"/>'


def interval_panel(run, x):
    shown = [report for report in run.reports if report.ends]
    ends = [end for report in shown for end in offsets(report)]
    y = Scale(min(ends + [0]), max(ends + [0]), INTERVALS[1], INTERVALS[0])
    true = any(report.truth is not None for report in shown)
    around = "the truth" if true else "its middle"
    yield from frame(y, f"Each interval around {around}, in {run.unit}", *INTERVALS)
    yield f'<g fill="{INTERVAL}">' + "".join(bars(run.reports, x, y, offsets)) + "</g>"
    if true:
        yield rule(LEFT, y.at(0), WIDTH - RIGHT, y.at(0), TRUTH, 2)
    widths = [report.ends[1] - report.ends[0] for report in shown]
    told = f"width {min(widths):,.0f} to {max(widths):,.0f} {run.unit}"
    yield text(WIDTH - RIGHT, INTERVALS[0] - 10, told, text_anchor="end", font_size=13)


def datagram_panel(run, x):
    """A dot for each answer that landed, and a cross for each request or answer that was lost."""
    if run.came or run.lost:
        yield text(LEFT - 8, CAME + 4, f"{len(run.came)} came", text_anchor="end", font_size=12)
        yield text(LEFT - 8, LOST + 4, f"{len(run.lost)} lost", text_anchor="end", font_size=12, fill=GONE)
    for time in run.came:
        yield f'<circle cx="{x.at(time)}" cy="{CAME}" r="3" fill="{INTERVAL}"/>'
    for time in run.lost:
        at = x.at(time)
        yield (f'<path d="M{at - 4:.1f} {LOST - 4} l8 8 M{at - 4:.1f} {LOST + 4} l8 -8" stroke="{GONE}" '
               'stroke-width="2" fill="none"/>')


def cue_marks(run, x):
    for number, (time, words) in enumerate(run.cues):
        yield rule(x.at(time), POSITIONS[0], x.at(time), INTERVALS[1], PALE)
        yield text(x.at(time) + 4, POSITIONS[0] + 12 + number % 3 * 14, words, font_size=12)


def time_axis(x):
    yield rule(LEFT, BOTTOM, WIDTH - RIGHT, BOTTOM, PALE)
    for value in x.marks(10):
        yield rule(x.at_mark(value), BOTTOM, x.at_mark(value), BOTTOM + 5, PALE)
        yield text(x.at_mark(value), BOTTOM + 20, f"{value:,}", text_anchor="middle", font_size=12)
    yield text(WIDTH - RIGHT, BOTTOM + 40, x.name, text_anchor="end", font_size=13)


def time_scale(run, name):
    times = [report.time for report in run.reports] + run.came + run.lost
    return Times(min(times), max(times), name)


def picture(run, title, unit):
    x = time_scale(run, unit)
    yield (f'<svg xmlns="http://www.w3.org/2000/svg" viewBox="0 0 {WIDTH} {HEIGHT}" width="{WIDTH}" height="{HEIGHT}" '
           f'role="img" aria-labelledby="title" font-family="Helvetica, Arial, sans-serif" font-size="14" '
           f'fill="{INK}">')
    yield f'<title id="title">{escape(title)}</title>'
    yield f'<rect x="1" y="1" width="{WIDTH - 2}" height="{HEIGHT - 2}" rx="14" fill="#ffffff" stroke="{PALE}"/>'
    yield text(LEFT, 40, title, font_size=18, font_weight="bold")
    yield from legend(any(report.truth is not None for report in run.reports))
    yield from gaps(run.reports, x)
    yield from position_panel(run, x)
    yield from interval_panel(run, x)
    yield from causes(run.reports, x)
    yield from datagram_panel(run, x)
    yield from cue_marks(run, x)
    yield from time_axis(x)
    yield "</svg>"


def main():
    parser = argparse.ArgumentParser(description=__doc__, formatter_class=argparse.RawDescriptionHelpFormatter)
    parser.add_argument("schedule", nargs="?")
    parser.add_argument("--every", type=int, default=SECOND, help="nanoseconds between two reports of a live run")
    parser.add_argument("--companion", type=int, default=1, help="whose reports of a replay are drawn")
    parser.add_argument("--title", help="what stands above the picture")
    options = parser.parse_args()
    run = read_run(options, sys.stdin)
    if not any(report.ends for report in run.reports):
        print("docs/plot.py: no report has an interval", file=sys.stderr)
        return 1
    title = options.title or ("A live run" if options.schedule is None else f"A replay of {options.schedule}")
    print("\n".join(picture(run, title, "true time" if options.schedule else "time of the report")))
    return 0


if __name__ == "__main__":
    sys.exit(main())
