#!/usr/bin/env python3
"""Tries javascript/css-lines with Node: lines of a watch that are cut, begun again and garbled, and live ones.

    tests/javascript.py [PROGRAM ..]    the program's words before the command; $CSS, or ./css, where there are none

What it says of drawn evenings is compared with page_due.py, which shares no code with it. Live, it takes the lines of
`watch` beside `css tv`, and beside a television with loss and a delay of 60 ms: 60 reports each by the machine's clock
and by that of the lines, and none is false. Each check prints a line. The exit status is 1 where one failed.
"""
import base64
import json
import pathlib
import random
import shutil
import subprocess
import sys

sys.dont_write_bytecode = True
from checks import Checks, ports, program
from late_tv import Late, OfCss, is_true
from live_edge import Beside
from page_due import due, position
from page_tv import SECOND, SELECTOR, SLOW_RATE, Evening

HARNESS = pathlib.Path(__file__).resolve().parent / "javascript"
REPORTS = 60
check = Checks()


def made(steps, **more):
    """What comes of steps."""
    text = json.dumps({"steps": steps, **more})
    done = subprocess.run(["node", HARNESS / "steps.mjs"], input=text, capture_output=True, text=True, timeout=120,
                          check=False)
    if done.returncode:
        print(done.stderr[-2000:])
    return [json.loads(line) for line in done.stdout.splitlines()]


def drawn(seed):
    """The lines of an evening in which what changes, and when, is drawn. Its content id isn't ASCII."""
    draw = random.Random(seed)
    names = ("pause", "resume", "news", "channel", "garble", "mend", "mend", "stray", "sleep")
    actions = sorted((draw.uniform(2, 40), draw.choice(names)) for _ in range(40))
    lines = [json.loads(line) for _, line in Evening(actions, 42, seed=seed).lines()]
    for line in lines:
        if line["event"] == "state":
            line["state"]["contentId"] = "dvb://Ελλάς.🎬.é"
    return lines


def text_of(lines):
    return "".join(json.dumps(line, ensure_ascii=False) + "\n" for line in lines).encode()


def wanted_at(lines, reading):
    """What is to be said after lines at a reading, by the second computation: the wall clock and the ticks."""
    report, control, rate = due(lines)
    return report and [str(end) for end in position(report, control, rate, max(reading, int(report["reading"])))]


def ends_of(told):
    return told and [*told["wall"], *told["ticks"]]


# ---- streams

def cut_anywhere():
    """The bytes of an evening come in pieces of any length, from a byte on."""
    wrong, known = [], 0
    for seed in range(8):
        lines, draw = drawn(seed), random.Random(seed)
        steps, wanted, begun = [], [], 0
        for number in range(draw.randrange(5, 25), len(lines), 9):
            data = text_of(lines[begun:number])
            cuts = sorted(draw.randrange(len(data)) for _ in range(draw.choice((0, 3, 300))))
            pieces = [data[a:b] for a, b in zip([0, *cuts], [*cuts, len(data)])]
            reading = max(int(line.get("reading", 0)) for line in lines[:number]) + draw.randrange(5 * SECOND)
            steps += [["push", base64.b64encode(piece).decode()] for piece in pieces] + [["at", str(reading)]]
            wanted.append(wanted_at(lines[:number], reading))
            begun = number
        told = [ends_of(value) for kind, value in made(steps) if kind == "at"]
        wrong += [] if told == wanted else [seed]
        known += sum(one is not None for one in wanted)
    check("lines cut anywhere tell what whole lines do", not wrong and known > 50, wrong or f"{known} positions")


def begun_again():
    """A stream that ends within a line, and another one."""
    first, second = drawn(1)[:60], [json.loads(line) for _, line in Evening([], 6).lines()]
    reading = max(int(line.get("reading", 0)) for line in second) + SECOND
    for line in first:  # Of another machine, which runs for longer.
        line.update({name: str(int(line[name]) + 10**15) for name in ("reading", "landed") if name in line})
    half, ask = text_of(first)[:-30].decode(), ["at", str(reading)]
    wanted = wanted_at(second, reading)
    told = made([["text", half], ["begin", None], ask, ["text", text_of(second).decode()], ask])
    at = [ends_of(value) for kind, value in told if kind == "at"]
    check("a stream begun again tells nothing of the one before", wanted and at == [None, wanted], at)
    told = made([["text", half], ["text", "\n" + text_of(second).decode()], ask])
    at = [ends_of(value) for kind, value in told if kind == "at"]
    kinds = [kind for kind, _ in told]
    check("half a line is told, and what comes then is right", at == [wanted] and "unreadable" in kinds, at)


def unreadable():
    """After a line that can't be read nothing is known, until all of it is told anew."""
    lines = [json.loads(line) for _, line in Evening([], 6).lines()]
    whole, report = text_of(lines).decode(), [line for line in lines if "ticks" in line][-1]
    ask = ["at", report["reading"]]
    bad = ["{", "null", "[1", '{"event":"state","state":{"timelines":[5]}}', '{"event":"state","state":5}',
           '{"event":"control","control":{"contentTime":"x","wallClockTime":"1","timelineSpeedMultiplier":1}}',
           '{"event":"control","control":{"contentTime":"1","wallClockTime":"1","timelineSpeedMultiplier":0.5}}',
           json.dumps({**report, "agreed": ["2", "1"]}), json.dumps({**report, "agreed": None, "wall": None}),
           json.dumps({**report, "error": 1.5}), json.dumps({**report, "reading": "x"}),
           json.dumps({"event": "visit", "number": 1}), json.dumps({"event": "answer", "landed": {}})]
    bad.append('{"event":"state","state":{"timelines":[{"timelineSelector":"%s","timelineProperties":'
               '{"unitsPerSecond":90000,"unitsPerTick":0}}]}}' % SELECTOR)
    wrong = []
    for line in bad:
        told = made([["text", whole], ask, ["text", line + "\n"], ask, ["text", json.dumps(report) + "\n"], ask,
                     ["text", whole], ask])
        at = [value is not None for kind, value in told if kind == "at"]
        right = at == [True, False, False, True] and ["unreadable", line] in told
        wrong += [] if right and ["cause", "a line couldn't be read"] in told else [line]
    check(f"each of {len(bad)} lines that can't be read ends what is known", not wrong, wrong)
    others = ['{"event":"later","reading":"%s"}' % report["reading"], "5", '"x"', "", '{"event":"constructor"}']
    told = made([["text", whole], *[["text", line + "\n"] for line in others], ask])
    check("a line of another kind changes nothing", told[-1][1] and not [it for it in told if it[0] == "unreadable"])


def past_2_53():
    """Numbers that a double would round."""
    begin = 2**61 + 1
    rate = {"unitsPerSecond": 10**9, "unitsPerTick": 1}
    lines = [{"event": "visit", "number": 1, "reading": str(begin)},
             {"event": "state", "state": {"timelines": [{"timelineSelector": SELECTOR, "timelineProperties": rate}]}},
             {"event": "control", "control": {"contentTime": "-999999999999999999", "timelineSpeedMultiplier": 64,
                                              "wallClockTime": str(2**62 - 12345)}},
             {"event": "report", "number": 1, "reading": str(begin), "error": 128_000, "rate": rate, "speed": 64,
              "ticks": ["1", "2"], "wall": [str(2**62 + 1), str(2**62 + 3)]}]
    wanted = wanted_at(lines, begin + 7)
    (told,) = [value for kind, value in made([["text", text_of(lines).decode()], ["at", str(begin + 7)]])
               if kind == "at"]
    check("numbers past 2^53 are exact", ends_of(told) == wanted and abs(int(wanted[2])) > 2**53, ends_of(told))


def events():
    """What is told as it happens."""
    evening = Evening([(2, "pause"), (3, "garble"), (3.5, "mend"), (5.5, "sleep"), (8, "off")], 10)
    lines = [json.loads(line) for _, line in evening.lines()]
    told = made([["text", text_of(lines).decode()]])
    causes = [value for kind, value in told if kind == "cause"]
    wanted = ["no report has come yet", "no response to 1 requests", None, "Unreadable Field wallClockTime", None,
              "slept"]
    check("the causes are told as they change", causes[:len(wanted)] == wanted, causes)
    visits = [value for kind, value in told if kind == "visit"]
    begun = [{"number": line["number"], "reading": line["reading"]} for line in lines if line["event"] == "visit"]
    check("each visit is told", visits == begun and len(begun) > 1, len(visits))
    controls = [value for kind, value in told if kind == "control"]
    texts = [line for line in lines if line["event"] == "control"]
    right = all(one == ({"content": None, "fault": line["fault"]} if "fault" in line else
                        {"content": line["control"]["contentTime"], "wall": line["control"]["wallClockTime"],
                         "speed": str(line["control"]["timelineSpeedMultiplier"])})
                for one, line in zip(controls, texts))
    check("and each control timestamp", right and len(controls) == len(texts) > 3, len(controls))


# ---- the stream's own clock

def by_stream():
    """Two clocks whose errors are drawn, and lines that take any time, but for one in each window."""
    outside, widths, seen = 0, [], 0
    for seed in range(40):
        draw = random.Random(seed)
        there, here = (1 + draw.uniform(-5e-4, 5e-4) for _ in range(2))
        delay, start, steps, truth = 20_000_000, draw.randrange(2**61), [], []
        for number in range(60):
            sent = number * SECOND // 2 + draw.randrange(SECOND // 4)
            late = draw.randrange(delay) if number % 8 == 0 else draw.randrange(SECOND // 4)
            line = {"event": "answer", "landed": str(start + round(sent * there))}
            steps += [["now", str(10**12 + round((sent + late) * here))], ["take", json.dumps(line)]]
            asked = sent + late + draw.randrange(1000)
            steps += [["now", str(10**12 + round(asked * here))], ["here", None]]
            truth.append(start + round(asked * there))
        told = [value["readings"] for kind, value in made(steps) if kind == "here"]
        seen += len(told)
        outside += sum(not int(low) <= reading <= int(high) for (low, high), reading in zip(told, truth))
        widths += [int(high) - int(low) for low, high in told]
    widest = max(widths) / 1e6
    check("the stream's own clock contains the watch's", seen == 2400 and not outside and widest < 32,
          f"{outside} of {seen} outside, {widest:.1f} ms wide at most")


def what_it_adds():
    """The readings are known from one to another, and the interval is wider by what goes by between them."""
    lines = [line for line in drawn(3) if line["event"] not in ("end", "slept")][:60]
    steps = [["now", "0"], ["text", text_of(lines).decode()], ["now", str(2 * SECOND)], ["here", None]]
    (told,) = [value for kind, value in made(steps) if kind == "here"]
    first, last = map(int, told["readings"])
    report, control, rate = due(lines)
    (low, _, *one), (_, high, *other) = (position(report, control, rate, at) for at in (first, last))
    wanted = [str(end) for end in (low, high, min(one + other), max(one + other))]
    known = position(report, control, rate, first)[1]
    check("what the way of the lines adds is said", ends_of(told["position"]) == wanted and
          told["position"]["added"] == str(high - known) and high > known, told["position"]["added"])
    told = made([["here", None], ["now", "5"], ["take", '{"event":"slept","reading":"7"}'], ["here", None]])
    check("before the first line no reading is known", told[0][1] == {"position": None, "readings": None}, told[0])


# ---- types

def types():
    """What is written with the types is taken by TypeScript's compiler."""
    if not shutil.which("tsc"):
        check.skip("the types of css-lines", "there is no tsc")
        return
    words = ["--strict", "--noEmit", "--target", "es2022", "--moduleResolution", "node", HARNESS / "types.ts"]
    done = subprocess.run(["tsc", *words], capture_output=True, text=True, timeout=300, check=False)
    check("TypeScript takes the types", done.returncode == 0, done.stdout[:500])


# ---- live

def followed(check, words, tv, name):
    """The lines of a watch beside a television, 60 times by each clock."""
    watch = subprocess.Popen([*words, "watch", "--cii", tv.cii, "--report-every", "100000000", "--ask-every",
                              "100000000"], stdout=subprocess.PIPE)
    child = subprocess.Popen(["node", HARNESS / "follow.mjs", str(REPORTS)], stdin=watch.stdout,
                             stdout=subprocess.PIPE)
    watch.stdout.close()
    known, wrong = {"machine": 0, "stream": 0}, []
    for line in map(json.loads, child.stdout):
        if line["position"] is None:
            continue
        known[line["name"]] += 1
        tv.go(known["machine"])
        control = {"contentTime": line["control"]["content"], "wallClockTime": line["control"]["wall"],
                   "timelineSpeedMultiplier": int(line["control"]["speed"])}
        rate = {unit: int(value) for unit, value in line["position"]["rate"].items()}
        ticks = [int(tick) for tick in line["position"]["ticks"]]
        if not is_true(tv, ticks, control, rate, int(line["before"]), int(line["after"])):
            wrong.append(line)
    child.wait()
    watch.kill()
    watch.wait()
    tv.end()
    check(f"{REPORTS} positions beside {name}, by both clocks, and none is false",
          not wrong and min(known.values()) >= REPORTS, wrong[:2] or known)


def main(words):
    if not shutil.which("node"):
        check.skip("javascript/css-lines", "there is no node")
        return check.end()
    for each in (cut_anywhere, begun_again, unreadable, past_2_53, events, by_stream, what_it_adds, types):
        each()
    words, port = program(words), ports()
    Beside([(followed, words, Late(port), "a television with loss and delay"),
            (followed, words, OfCss(words, port + 4), "css tv")]).tell(check)
    return check.end()


if __name__ == "__main__":
    sys.exit(main(sys.argv[1:]))
