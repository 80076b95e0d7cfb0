#!/usr/bin/env python3
"""Times `css survey`, `css generate` and `css replay` of the longest schedules, of seed 1 and 200,000 lines.

    bench/survey.py [PROGRAM]       crates/css/out/proved/css, which ./css builds, where none is given

Printed are, for 1, 2 and 16 companions, the line of the survey, and of each command the processor time and the peak of
resident memory: less than a second, and less than 16 MB. The survey must be the line below, which another program
found. What is surveyed and generated must be the same twice, and a replay of it must print what was counted.
"""

import subprocess
import sys
import tempfile

import programs

PROGRAM = programs.css(*sys.argv[1:2])
WORDS = ["--seed", "1", "--lines", "200000"]
SURVEYS = {
    1: b"lines 200000 prints 50114 intervals 50110 widest 8178\n",
    2: b"lines 200000 prints 44614 intervals 54 widest 30175\n",
    16: b"lines 200000 prints 44585 intervals 429 widest 143468\n",
}
SECONDS = 1.0
MEGABYTES = 16.0


def run(words, given=None):
    """A file with what the program writes, its processor seconds, and its peak in megabytes."""
    written = tempfile.TemporaryFile()
    status, seconds, peak = programs.measured([PROGRAM, *words], stdin=given or subprocess.DEVNULL, stdout=written)
    if status != 0:
        sys.exit(f"{' '.join(words)} ended with {status}")
    written.seek(0)
    return written, seconds, peak


def same(one, other):
    """Whether two files are alike."""
    alike = True
    while alike and (part := one.read(1 << 16)):
        alike = part == other.read(1 << 16)
    alike = alike and not other.read(1)
    one.seek(0)
    return alike


def counted(printed):
    """What a survey tells of lines for which this was printed."""
    prints = intervals = widest = 0
    for line in printed:
        words = line.split()
        prints += 1
        if words[1] == b"ticks":
            intervals += 1
            widest = max(widest, int(words[3]) - int(words[2]))
    return b"lines 200000 prints %d intervals %d widest %d\n" % (prints, intervals, widest)


def measured(words, given=None):
    """What a command of these words writes, within the limits and, where it reads nothing, the same twice."""
    written, seconds, megabytes = run(words, given)
    print(f"{words[0]}: {seconds:.2f} s, {megabytes:.1f} MB")
    if seconds >= SECONDS or megabytes >= MEGABYTES:
        sys.exit("this is too much")
    if given is None and not same(written, run(words)[0]):
        sys.exit("this differs from run to run")
    return written


def main():
    for companions, survey in SURVEYS.items():
        words = WORDS + (["--companions", str(companions)] if companions > 1 else [])
        print(f"companions: {companions}")
        if measured(["survey", *words]).read() != survey:
            sys.exit("this isn't the survey")
        schedule = measured(["generate", *words])
        if counted(measured(["replay"], schedule)) != survey:
            sys.exit("a replay prints other reports than were counted")


if __name__ == "__main__":
    main()
