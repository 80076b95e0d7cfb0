#!/usr/bin/env python3
"""Tries examples/carry.py and examples/carry.mjs: what they say of made-up lines.

    tests/carrying.py

The first lines were worked out by hand; css_texts_tests has the same numbers. Over drawn evenings, in which programmes
change their rate between two reports, both programs are compared with page_due.py, which shares no code with them. Each
check prints a line. The exit status is 1 where one failed. Without Node the second program is skipped.
"""
import json
import pathlib
import random
import shutil
import subprocess
import sys

from page_due import due, position
from page_tv import RATE, SECOND, SELECTOR, SLOW_RATE, Evening

EXAMPLES = pathlib.Path(__file__).resolve().parent.parent / "examples"
HALF = SECOND // 2
failed = []


def check(name, holds, told=""):
    print(("ok      " if holds else "FAILED  ") + name + (f": {told}" if told != "" else ""), flush=True)
    if not holds:
        failed.append(name)


def programs():
    found = [EXAMPLES / "carry.py"]
    if shutil.which("node"):
        found.append(EXAMPLES / "carry.mjs")
    else:
        print("skipped carry.mjs: there is no node", flush=True)
    return found


def said(program, lines, *words):
    """What a program says of lines, as lines."""
    text = "".join(json.dumps(line) + "\n" for line in lines)
    done = subprocess.run([program, *words], input=text, capture_output=True, text=True, timeout=60, check=False)
    return (done.stdout + done.stderr).splitlines()


# ---- rows

REPORT = {"event": "report", "number": 1, "reading": "1000000000", "error": 128_000, "rate": RATE, "speed": 1,
          "ticks": ["629865", "630135"], "wall": ["6998500000", "7001500000"]}


def state(*timelines):
    listed = [{"timelineProperties": rate, "timelineSelector": selector} for selector, rate in timelines]
    return {"event": "state", "state": {"timelines": listed or None}}


def control(speed):
    return {"event": "control", "control": {"contentTime": "100", "timelineSpeedMultiplier": speed,
                                            "wallClockTime": "7300000000"}}


def units(per_second, per_tick=1):
    return {"unitsPerSecond": per_second, "unitsPerTick": per_tick}


UNKNOWN = {"event": "control", "control": dict.fromkeys(("contentTime", "timelineSpeedMultiplier", "wallClockTime"))}
FIRST = [state((SELECTOR, RATE)), control(1), REPORT]

# What the lines say after the report of a programme with 90,000 ticks a second, and what is then said of half a second
# after that report.
ROWS = [
    ("another rate", SELECTOR, [state((SELECTOR, SLOW_RATE))], ["state then 297 302"]),
    ("the plain rate", SELECTOR, [state((SELECTOR, RATE))], ["state then 17919 18280"]),
    ("a pause", SELECTOR, [control(0), state((SELECTOR, SLOW_RATE))], ["control then 100 100", "state then 100 100"]),
    ("backwards", SELECTOR, [state((SELECTOR, SLOW_RATE)), control(-2)], ["state then 297 302",
                                                                          "control then -305 -296"]),
    ("a billion ticks", SELECTOR, [state((SELECTOR, units(10**9))), control(64)],
     ["state then 197998349 202002355", "control then 12671888036 12928144420"]),
    ("few ticks", SELECTOR, [state((SELECTOR, units(1, 1001)))], ["state then 100 100"]),
    ("the first of two", SELECTOR, [state(("urn:x:1", units(50)), (SELECTOR, SLOW_RATE), (SELECTOR, RATE))],
     ["state then 297 302"]),
    ("not listed", SELECTOR, [state(), state(("urn:x:1", SLOW_RATE))], ["state then 17919 18280"] * 2),
    ("another selector", "urn:x:1", [state((SELECTOR, RATE), ("urn:x:1", SLOW_RATE))], ["state then 297 302"]),
    ("another one, not listed", "urn:x:1", [state((SELECTOR, RATE)), control(0), state(("urn:x:1", SLOW_RATE))],
     ["state then unknown", "control then unknown", "state then 100 100"]),
    ("no such timeline", SELECTOR, [UNKNOWN, control(0)], ["control then unknown", "control then 100 100"]),
    ("a text that is refused", SELECTOR, [{"event": "control", "fault": "NotJson"}, control(0)],
     ["control then unknown", "control then 100 100"]),
    ("what all answers allow", SELECTOR,
     [{**REPORT, "agreed": ["6999500000", "7000500000"]}, state((SELECTOR, SLOW_RATE))],
     ["ticks 629865 630135 then 18009 18190", "state then 298 301"]),
    ("a sleep", SELECTOR, [{"event": "slept", "reading": "1200000000"}, control(0)], []),
    ("another visit", SELECTOR, [{"event": "end", "number": 1, "why": "closed TS"}, control(0),
                                 {"event": "visit", "number": 2, "reading": "1200000000"}, control(0)], []),
]


def rows(program):
    for name, selector, lines, wanted in ROWS:
        first = [{**line, **state((selector, RATE))} if line["event"] == "state" else line for line in FIRST]
        told = said(program, first + lines, str(HALF), selector)
        right = told == ["1 ticks 629865 630135 then 17919 18280", *(f"1 {words}" for words in wanted)]
        check(f"{program.name}: {name}", right, "" if right else told)


# ---- evenings

def drawn(seed):
    """The lines of an evening in which what changes, and when, is drawn."""
    draw = random.Random(seed)
    names = ("pause", "resume", "news", "channel", "garble", "mend", "set clock", "sleep", "off", "on", "tell")
    actions = sorted((draw.uniform(2, 40), draw.choice(names)) for _ in range(40))
    return [json.loads(line) for _, line in Evening(actions, 42, seed=seed).lines()]


def wanted(lines, after):
    """What is to be said of lines, by the second computation."""
    for number, line in enumerate(lines, 1):
        report, timestamp, rate = due(lines[:number])
        if line["event"] not in ("report", "control", "state") or not report_in(lines[:number]):
            continue
        told = ["ticks", *line["ticks"]] if line["event"] == "report" else [line["event"]]
        ticks = ["unknown"] if report is None else position(report, timestamp, rate, int(report["reading"]) + after)[2:]
        yield " ".join(map(str, [report_in(lines[:number])["number"], *told, "then", *ticks]))


def report_in(lines):
    """The last report, while it can be carried on."""
    found = [line for line in lines if line["event"] in ("report", "visit", "end", "slept")][-1:]
    return found[0] if found and "ticks" in found[0] else None


def evenings(program):
    wrong, changed, unknown = [], 0, 0
    for seed in range(12):
        lines, after = drawn(seed), random.Random(seed).randrange(10 * SECOND)
        told, right = said(program, lines, str(after)), list(wanted(lines, after))
        wrong += [] if told == right else [(seed, [pair for pair in zip(told, right) if len(set(pair)) > 1][:1])]
        changed += sum("state then" in line for line in told)
        unknown += sum("unknown" in line for line in told)
    told = f"{changed} changes of the state, {unknown} lines with no position"
    check(f"{program.name}: drawn evenings go by the formula", not wrong and changed and unknown, wrong or told)


def main():
    for program in programs():
        rows(program)
        evenings(program)
    print(f"{len(failed)} failed")
    return 1 if failed else 0


if __name__ == "__main__":
    sys.exit(main())
