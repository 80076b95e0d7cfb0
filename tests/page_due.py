"""What the page has to show, by the lines alone: the position, what is the matter, and what was refused."""
import fractions
import re

from page_tv import carried, rate_in, tick_at


def due(lines):
    """The report that counts after these lines, the control timestamp and the rate; None each where there is none."""
    report = control = rate = None
    for line in lines:
        event = line["event"]
        if event == "visit":
            report = control = rate = None
        elif event in ("end", "slept"):
            report = None
        elif event == "control":
            control = line.get("control")
            control = control and control["contentTime"] and control
        elif event == "report":
            report = line if "ticks" in line else None
        elif event == "state":
            rate = rate_in(line["state"]["timelines"])
    return (report, control, rate) if report and control and rate else (None, None, None)


def position(report, control, rate, reading):
    """The span of the wall clock and the ticks, as the formula carries them on."""
    told = [int(end) for end in report.get("agreed", report["wall"])]
    wall = carried(told, report["error"], reading - int(report["reading"]))
    return [*wall, *sorted(tick_at(end, control, rate) for end in wall)]


def right_position(seen, lines):
    """Whether a moment of the page has the position that its lines give."""
    report, control, rate = due(lines[:seen["lines"]])
    if not seen["now"] or report is None:
        return not seen["now"] and report is None
    reading, *shown = map(int, seen["now"].split())
    return reading >= int(report["reading"]) and shown == position(report, control, rate, reading)


def times(ticks, rate):
    """The ends of an interval as times of day: rounded outwards, or one in the middle where it is below 1 ms."""
    low, high = (fractions.Fraction(tick * rate["unitsPerTick"] * 1000, rate["unitsPerSecond"]) for tick in ticks)
    ends = [low // 1, -(-high // 1)] if high - low >= 1 else [((low + high) / 2 + fractions.Fraction(1, 2)) // 1]
    return " to ".join(time_of(end) for end in ends)


def time_of(ms):
    sign, ms = ("−" if ms < 0 else ""), abs(ms)
    return f"{sign}{ms // 3600000}:{ms // 60000 % 60:02}:{ms // 1000 % 60:02}.{ms % 1000:03}"


# What the page says of a detail, but for a service that isn't open.
SENTENCES = {
    "no wcUrl": "The television tells no address of its wall clock",
    "no tsUrl": "The television tells no address of its timeline",
    "nothing was asked": "The television's wall clock hasn't been asked yet",
    "no text came": "The television hasn't told a control timestamp yet",
}


def sentence_of(detail):
    """What the page says of a detail, but for a service that isn't open."""
    count = re.fullmatch(r"no response to (\d+) requests", detail)
    if count:
        many = "request" if count[1] == "1" else "requests"
        return f"The television's wall clock doesn't answer: no response to {count[1]} {many}"
    if detail.startswith("the last datagram was refused: "):
        return f"The television's wall clock answers wrongly: {detail.split(': ', 1)[1]}"
    return SENTENCES[detail]


def matter(lines):
    """What the last report says is the matter, and since which reading; None where something else came after it."""
    found = since = None
    for line in lines:
        if line["event"] == "report":
            said = line.get("cause") in ("NoAnswer", "NoTimestamp") and line["detail"]
            if not said or not found or without_digits(said) != without_digits(found):
                since = int(line["reading"])
            found = said
        elif line["event"] in ("end", "slept") or "fault" in line:
            found = None
    return (found, since) if found else None


def without_digits(words):
    return re.sub(r"\d+", "", words)


def refused(lines):
    """What was refused, with its reason, the newest first."""
    found = []
    for line in lines:
        if line["event"] == "refused":
            found.append(["datagram", line["fault"]])
        elif line["event"] == "control" and "fault" in line:
            found.append(["CSS-TS text", line["fault"]])
        elif line["event"] == "end" and line["why"].startswith("CII text"):
            found.append(line["why"].split(": ", 1))
        elif line["event"] == "end" and line["why"].startswith("bad "):
            found.append([line["why"].split()[1], line["why"]])
    return found[::-1]
