#!/usr/bin/env python3
"""Runs `css replay` on a schedule of the greatest length, and on one that has a byte more.

The first is read to its end with status 0. In the second the last line is too long, since the byte too many is its line
feed.
"""

import os
import subprocess
import sys

HERE = os.path.dirname(os.path.dirname(os.path.abspath(__file__)))
GREATEST = 67_108_864
FRONT = b"css-schedule 1 plain 0 -30 0 0 urn:x"
BACK = b" -\n"
LAST = b"4294967295999999999"
WALL = LAST + b" " + LAST + b" " + LAST + b" wall " + LAST + b"\n"


def schedule(length):
    """A schedule of this many bytes. Its selector fills up what whole lines leave."""
    lines = (length - len(FRONT) - len(BACK)) // len(WALL)
    filler = length - len(FRONT) - len(BACK) - lines * len(WALL)
    return FRONT + b"x" * filler + BACK + WALL * lines, lines + 1


def replay(length):
    """The exit status, the number of printed lines, and the status line."""
    text, lines = schedule(length)
    assert len(text) == length
    run = subprocess.run([os.path.join(HERE, "css"), "replay"], input=text, capture_output=True, check=False)
    return run.returncode, run.stdout.count(b"\n"), run.stderr.decode(), lines


def main():
    status, printed, told, lines = replay(GREATEST)
    print(f"{GREATEST} bytes, {lines} lines: status {status}, {printed} lines printed")
    good = (status, printed, told) == (0, lines - 1, "")
    status, printed, told, lines = replay(GREATEST + 1)
    print(f"{GREATEST + 1} bytes, {lines} lines: status {status}, {printed} lines printed, {told.strip()!r}")
    good = good and (status, printed, told) == (2, lines - 2, f"css: line {lines}: long\n")
    sys.exit(0 if good else 1)


if __name__ == "__main__":
    main()
