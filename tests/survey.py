#!/usr/bin/env python3
"""Surveys and generates schedules with the built program, up to the longest one of 200,000 lines.

    tests/survey.py [PROGRAM ..]       the program's words before the command; ./css where there are none

The surveys below come from another program. What is generated must be the same twice, and a replay of it must print
what its survey counts. Each check prints a line. The exit status is 1 where one failed.
"""
import subprocess
import sys

from checks import Checks, program

PROGRAM = program(sys.argv[1:])
# By the number of lines, and of companions.
SURVEYS = {
    (9, 1): b"lines 9 prints 0 intervals 0 widest 0\n",
    (2000, 1): b"lines 2000 prints 512 intervals 508 widest 2295\n",
    (200000, 1): b"lines 200000 prints 50114 intervals 50110 widest 8178\n",
    (16, 2): b"lines 16 prints 0 intervals 0 widest 0\n",
    (2000, 2): b"lines 2000 prints 438 intervals 0 widest 0\n",
    (200000, 2): b"lines 200000 prints 44614 intervals 54 widest 30175\n",
    (200000, 16): b"lines 200000 prints 44585 intervals 429 widest 143468\n",
}
OPENING = b"""css-schedule 1 follow 12800 -20 12800 1000 urn:dvb:css:timeline:pts dvb://
0 1000000000 1000000000 programme dvb://1.2.3
0 1000000000 1000000000 timeline 1 urn:dvb:css:timeline:pts 1 90000 0
0 1000000000 1000000000 change 1000000000 1
0 1000000000 1000000000 open cii
0 1000000000 1000000000 text cii
0 1000000000 1000000000 open ts
0 1000000000 1000000000 up ts
0 1000000000 1000000000 text ts
"""
PTS = "urn:dvb:css:timeline:pts"
check = Checks()


def opening_of(companions):
    """The lines that open a schedule of so many companions."""
    if companions == 1:
        return OPENING
    lines = [f"css-schedule 2 follow 12800 -20 {companions}"]
    lines += [f"companion {who} 12800 1000 {PTS} dvb://" for who in range(1, companions + 1)]
    television = ("programme dvb://1.2.3", f"timeline 1 {PTS} 1 90000 0", "change 1000000000 1")
    lines += ["0 1000000000 0 0 " + words for words in television]
    for who in range(1, companions + 1):
        sessions = ("open cii", "text cii", "open ts", "up ts", "text ts")
        lines += [f"0 1000000000 {who} 1000000000 {words}" for words in sessions]
    return "".join(line + "\n" for line in lines).encode()


def run(words, given=b"", sink=subprocess.PIPE):
    """How the program ends, what it writes, and what it tells on standard error."""
    done = subprocess.run([*PROGRAM, *words], input=given, stdout=sink, stderr=subprocess.PIPE, check=False)
    return done.returncode, done.stdout, done.stderr


def words(command, lines, companions=1):
    several = ["--companions", str(companions)] if companions > 1 else []
    return [command, "--seed", "1", "--lines", str(lines), *several]


def counted(lines, printed):
    """What a survey tells of a schedule for which this was printed."""
    reports = [line.split() for line in printed.splitlines()]
    widths = [int(report[3]) - int(report[2]) for report in reports if report[1] == b"ticks"]
    return b"lines %d prints %d intervals %d widest %d\n" % (lines, len(reports), len(widths), max(widths, default=0))


def survey_and_replay(lines, companions, survey):
    ended = run(words("survey", lines, companions))
    check(f"survey of {lines} lines, companions: {companions}", ended == (0, survey, b""), ended[1].decode().strip())
    ended, schedule, told = run(words("generate", lines, companions))
    check("so many lines are generated", (ended, told) == (0, b"") and schedule.count(b"\n") == lines)
    check("with the opening", schedule.startswith(opening_of(companions)))
    check("and again", run(words("generate", lines, companions)) == (0, schedule, b""))
    ended, printed, told = run(["replay"], schedule)
    check("a replay prints what is counted", (ended, counted(lines, printed), told) == (0, survey, b""))


def is_usage(ended):
    """The words were refused. A hint for a person may follow the status line."""
    return ended[:2] == (1, b"") and ended[2].startswith(b"css: usage\n")


def main():
    for (lines, companions), survey in SURVEYS.items():
        survey_and_replay(lines, companions, survey)
    for command in ("generate", "survey"):
        check(f"{command} of too few lines", is_usage(run(words(command, 8))))
        check(f"{command} of too few for 2 companions", is_usage(run(words(command, 15, 2))))
        check(f"{command} of 17 companions", is_usage(run(words(command, 200, 17))))
        with open("/dev/full", "wb") as full:
            ended, _, told = run(words(command, 9), sink=full)
        check(f"{command} on a full disk", (ended, told) == (5, b"css: write fault\n"))
    return check.end()


if __name__ == "__main__":
    sys.exit(main())
