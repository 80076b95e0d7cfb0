#!/usr/bin/env python3
"""Tries tools/report.py: on televisions whose faults are known, live and made up.

    tests/evidence.py [PROGRAM]     the program that watches and proves: $CSS where there is none, else ./css

Each way of tools/wrong_tv.py is watched live, and its report has to tell what docs/TESTING.md says of it, and nothing
else; with late follow-ups that is nothing, though intervals are false. The two answers that a report names have to be
those that an exact comparison of all answers finds. A good television with loss, delay and drift within its bound is
watched live, for some hundred answers; the lines of 10,000 answers of such ones are made up, since a watch asks at most
some 60 times a second. Lines are made up as well for a bad oscillator, clocks that are set, one wrong answer and
follow-ups. Each check prints a line. The exit status is 1 where one failed.
"""
import concurrent.futures
import html.parser
import json
import os
import pathlib
import re
import resource
import subprocess
import sys
import tempfile
import time

sys.dont_write_bytecode = True
from checks import TOP, Checks, ports, program
from evidence_lines import Made, even, pairs, uneven
from page_tv import SECOND, span
from peer import stamp
from television import Set, Television, answer_of

PORT, CSS = ports(), program(sys.argv[1:])
TRIES, EVERY, ASK, REPORT = 3, 4, 50_000_000, 200_000_000
NONE = "contradict each other, of those that a visit had"
FALSE = "two answers can't both be true"
CLOCKS = {"a good oscillator that changes": uneven(480, 40 * SECOND), "a fast one": even(499), "a slow one": even(-499)}
check = Checks()


# ---- reports

def report(lines, room, *words):
    """What the report on some lines says."""
    path = pathlib.Path(room) / f"{time.monotonic_ns()}.lines"
    path.write_bytes(lines)
    done = subprocess.run([sys.executable, TOP / "tools" / "report.py", path, "--css", CSS[0], *words], check=False,
                          stdin=subprocess.DEVNULL, stdout=subprocess.PIPE, stderr=subprocess.PIPE)
    return done.stdout.decode() if done.returncode == 0 and not done.stderr else f"FAILED {done.stderr.decode()}"


def named(told):
    """The pairs that a report names: originate, receive and transmit of each answer, and both datagrams."""
    times = re.findall(r"^ +originate (\d+), receive (\d+), transmit (\d+)\n.*\n +request +([0-9a-f]+)\n"
                       r" +(response|follow-up) +([0-9a-f]+)$", told, re.M)
    both = [(tuple(map(int, each[:3])), each[3], each[5]) for each in times]
    return list(zip(both[::2], both[1::2]))


def is_right(told, lines):
    """Whether a report names just the pairs that an exact comparison finds, with their bytes."""
    kinds = {tuple(int(said[name]) for name in ("originate", "receive", "transmit")): said["type"]
             for said in map(json.loads, lines) if said["event"] == "answer"}
    wanted = [tuple((times, (bytes(8) + stamp(times[0]) + bytes(16)).hex(), answer_of(kinds[times], *times).hex())
                    for times in pair) for pair in pairs(lines)]
    return named(told) == wanted and told.count(FALSE) == len(wanted) and all(
        f"proved   {line}" in told for line in re.findall(rf"^.{{7}}  (.*{FALSE}.*)$", told, re.M))


def masked(words):
    return re.sub(r"\d+", "#", words)


# ---- the page

def rows():
    """What TESTING.md says that the report on each way tells."""
    text = (TOP / "docs" / "TESTING.md").read_text(encoding="utf-8")
    return {way: re.findall("`([^`]+)`", told)
            for way, told in re.findall(r"^\| `([a-z0-9-]+)` \| it.* \| (`.*`) \|$", text, re.M)}


# ---- live televisions

def watched(port, seconds):
    """The lines of a watch."""
    words = ["watch", "--cii", f"ws://127.0.0.1:{port}/cii", "--ask-every", str(ASK), "--report-every", str(REPORT),
             "--seconds", str(seconds)]
    done = subprocess.run([*CSS, *words], stdin=subprocess.DEVNULL, stdout=subprocess.PIPE, stderr=subprocess.DEVNULL,
                          check=False, timeout=seconds + 120)
    return done.stdout


def lacks(told, lines, wanted):
    """What a report should tell and doesn't, and what it tells and shouldn't."""
    found = masked(told)
    missing = [words for words in wanted if masked(words) not in found]
    faults = set(re.findall(r"^counted  (CSS-\w+: \w.*|CSS-CII text.*), (?:once|# times):$", found, re.M))
    more = [fault for fault in faults if fault not in map(masked, wanted)]
    if (FALSE in told) != (FALSE in wanted):
        more.append("a contradiction")
    if not is_right(told, lines.splitlines(True)):
        more.append("the wrong pair")
    return missing + more


def false_walls(lines):
    """How many reports say that the wall clock is where it isn't, of a set whose clock nobody set."""
    reports = [said for said in map(json.loads, lines.splitlines()) if "wall" in said]
    truths = [Television().wall(int(said["reading"])) for said in reports]
    return sum(not int(said["wall"][0]) <= true <= int(said["wall"][1]) for said, true in zip(reports, truths))


def try_way(way, port, wanted, room):
    """What the report on a way lacks, at the last try: a machine may be too busy to see a thing that lasts so long."""
    for tried in range(TRIES):
        every = EVERY * (tried + 1)
        tv = subprocess.Popen([sys.executable, TOP / "tools" / "wrong_tv.py", "--port", str(port + 5 * tried),
                               "--every", str(every), way], stdout=subprocess.DEVNULL)
        try:
            lines = watched(port + 5 * tried, every * 5 // 2 - 1)
        finally:
            tv.kill()
            tv.wait()
        told = report(lines, room, "--all")
        bad = lacks(told, lines, wanted)
        if way == "follow-up" and not false_walls(lines):
            bad.append("an interval that is false")
        if not bad:
            return [], told
    return bad, told


def ways(room):
    """Each way in which a television is wrong, all of them beside one another."""
    listed = subprocess.run([sys.executable, TOP / "tools" / "wrong_tv.py", "--list"], capture_output=True, text=True,
                            check=True).stdout.split("\n")
    names, told = [line.split()[0] for line in listed if line], rows()
    check("TESTING.md has each way in which tools/wrong_tv.py is wrong", sorted(names) == sorted(told), len(told))
    with concurrent.futures.ThreadPoolExecutor(len(names)) as pool:
        made = {way: pool.submit(try_way, way, PORT + 20 * at % 100 + 3 * (20 * at // 100), told.get(way, []), room)
                for at, way in enumerate(names)}
        for way, end in made.items():
            bad, said = end.result()
            check(f"the report on {way} is that of TESTING.md", not bad, (bad, said) if bad else "")


def good(room):
    """A good television, live, with loss and delay, and an oscillator that is nearly as bad as it declares."""
    tv = Set(PORT + 97)
    tv.loss, tv.slow = 0.1, 500_000
    tv.set_drift(0, 490)
    try:
        lines = watched(PORT + 97, 12)
    finally:
        tv.end()
    told = report(lines, room)
    answers = lines.count(b'"event":"answer"')
    check("a good television, live: no fault and no contradiction", answers > 20 and NONE in told
          and FALSE not in told and "No datagram and no text was refused" in told, f"{answers} answers")
    drift = re.search(r"drifted by ([+-][\d.]+) to ([+-][\d.]+) ppm", told)
    check("its drift lies within what the report says", drift and float(drift[1]) <= 490 <= float(drift[2]),
          drift and drift[0])


# ---- lines that are made up

def made_up(room):
    """10,000 answers of good televisions, and televisions that are wrong in one way."""
    for name, wall in CLOCKS.items():
        lines = Made(wall, loss=0.2).make(10_000).lines
        told = report(b"".join(lines), room)
        check(f"{name}: no contradiction in 10,000 answers", f"No two of the 10000 answers {NONE}" in told)
    cases = [("an oscillator that is 3 times worse", even(1500), {}, "A worse oscillator explains it", "1500.0"),
             ("the same, with follow-ups", even(1500), {"follows": True}, "A worse oscillator explains it", "1500.0"),
             ("a clock that is set by 2 ms", even(37, 2_000_000, 20 * SECOND + 5), {},
              "A clock that was set explains it, forward by", "37.0"),
             ("one that is set back by 20 ms", even(37, -20_000_000, 20 * SECOND + 5), {},
              "A clock that was set explains it, back by", "37.0"),
             ("one wrong answer", even(37), {"wrong": (150, 9_000_000)}, "One wrong answer explains it", "37.0"),
             ("the same, and the watch names no pair", even(37), {"wrong": (150, 9_000_000), "names": False},
              "One wrong answer explains it", "37.0")]
    for name, wall, more, wanted, ppm in cases:
        lines = Made(wall, **more).make(300).lines
        told = report(b"".join(lines), room, "--all")
        check(f"{name}: the right pair, and what explains it", pairs(lines) and is_right(told, lines)
              and wanted in told, f"{len(pairs(lines))} pairs")
        drift = re.search(r"drifted by ([+-][\d.]+) to ([+-][\d.]+) ppm", told)
        check(f"{name}: its drift", drift and float(drift[1]) <= float(ppm) <= float(drift[2]), drift and drift[0])
    planted(told, lines)
    slept(room)


def planted(told, lines):
    """That this script sees a wrong pair: an answer that is another one, and two that changed places."""
    if not is_right(told, lines):
        return  # It has failed already.
    first, second = (re.search(rf"originate {times[0]}, .*\n.*\n.*\n.*", told)[0] for times in pairs(lines)[0])
    changed = told.replace(first, "@").replace(second, first).replace("@", second)
    others = [said for said in map(json.loads, lines) if said["event"] == "answer"][:1]
    other = told.replace(second.split(",")[0], f"originate {others[0]['originate']}")
    check("a wrong pair would be seen", is_right(told, lines) and changed != told != other
          and not is_right(changed, lines) and not is_right(other, lines))


def slept(room):
    """After a sleep no earlier answer counts, also where the clock was set meanwhile."""
    made = Made(even(37, 5 * SECOND, 20 * SECOND)).make(100)
    while made.time < 20 * SECOND:
        made.time += SECOND
    made.sleep()
    lines = made.make(100).lines
    told = report(b"".join(lines), room)
    check("a clock that is set during a sleep contradicts nothing", not pairs(lines) and NONE in told
          and "the machine slept" in told)


def wrong_local(room):
    """Where other local numbers are told than those of the watch, the report says that it proves nothing."""
    lines = b"".join(Made(even(37)).make(50).lines)
    told, right = report(lines, room, "--local-error", "25600"), report(lines, room)
    check("other local numbers than the watch's are noticed",
          "50 answers have another width" in told and "\nproved  " not in told
          and "another width" not in right and "\nproved  " in right)
    garbled = report(lines[:-40] + b"\n[]\n\xff\n{\"event\":\"end\"}\n", room)
    check("lines that can't be read are counted", "4 lines of " in garbled and NONE in garbled)


def large(room):
    """100,000 lines take 10 s at most: of processor time, since the machine may do other things."""
    lines = b"".join(Made(uneven(480, 3000 * SECOND)).make(99_994).lines)
    before = resource.getrusage(resource.RUSAGE_CHILDREN)
    told = report(lines, room)
    after = resource.getrusage(resource.RUSAGE_CHILDREN)
    took = sum(after[at] - before[at] for at in range(2))
    check("a report on 100,000 lines takes 10 s at most", lines.count(b"\n") == 100_000 and NONE in told and took <= 10,
          f"{took:.1f} s")


# ---- the page of a report

class Tags(html.parser.HTMLParser):
    """Whether each element ends, what the page asks for, and its words."""

    def __init__(self):
        super().__init__()
        self.open, self.asked, self.words, self.plots = [], [], [], 0

    def handle_starttag(self, tag, attrs):
        self.plots += tag == "svg"
        self.asked += [value for name, value in attrs if name in ("src", "href")]
        if tag != "meta":
            self.open.append(tag)

    def handle_startendtag(self, tag, attrs):
        pass

    def handle_endtag(self, tag):
        assert self.open.pop() == tag, tag

    def handle_data(self, data):
        self.words.append(data)


def page(room):
    """The page has all that the text has, and asks for nothing."""
    lines = b"".join(Made(even(37, 2_000_000, 20 * SECOND + 5)).make(300).lines)
    path, tags = pathlib.Path(room) / "report.html", Tags()
    told, nothing = report(lines, room), report(lines, room, "--html", str(path))
    text = path.read_text(encoding="utf-8")
    tags.feed(text)
    words = " ".join("".join(tags.words).split())
    missing = [line for line in told.splitlines() if line and " ".join(line.split()) not in words]
    check("the page has each line of the text", not missing and not nothing, missing[:2] or len(told.splitlines()))
    check("it has three plots, each element ends, and it asks for nothing",
          (tags.plots, tags.open, tags.asked) == (3, [], []) and "url(" not in text and "@import" not in text,
          (tags.plots, tags.open, tags.asked))


def main():
    with tempfile.TemporaryDirectory(prefix="css-evidence-") as room:
        with concurrent.futures.ThreadPoolExecutor(1) as pool:
            live = pool.submit(good, room)
            ways(room)
            live.result()
        made_up(room)
        wrong_local(room)
        page(room)
        large(room)
    return check.end()


if __name__ == "__main__":
    sys.exit(main())
