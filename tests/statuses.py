#!/usr/bin/env python3
"""Runs the built program css to each status of a replay, and compares what it writes and the exit status.

    tests/statuses.py [PROGRAM]         the program that ./css builds, where none is given

A failed read comes from a standard input that is open for writing alone, a failed write from /dev/full, and want of
memory from a limit of the address space. A status is also told by its number where standard error takes nothing. A hint
may follow the line of a status, and isn't looked at.
"""

import os
import resource
import subprocess
import sys

from checks import css

PROGRAM = css(*sys.argv[1:2])
HEADER = b"css-schedule 1 plain 0 -30 0 0 urn:x -\n"
EXCHANGE = b"""1000 4800 1000 ask 1000
1200 5000 1200 take 1 5000
1400 5200 1400 give 1 5200
1600 5400 1600 land 1 1600
1600 5400 1600 wall 1600
"""
MEGABYTE = 1 << 20
ADDRESS_SPACE = 48 * MEGABYTE


def asks():
    """Requests, each of which the replay keeps, as far as the greatest input goes."""
    return HEADER + b"".join(b"%d %d %d ask %d\n" % (i, i, i, i) for i in range(1_500_000))


def limited():
    resource.setrlimit(resource.RLIMIT_AS, (ADDRESS_SPACE, ADDRESS_SPACE))


# name, words, input, exit status, standard output, standard error
ROWS = [
    ("done", [b"replay"], HEADER + EXCHANGE, 0, b"6 wall 5197 5603 at 5400\n", b""),
    ("done without lines", [b"replay"], HEADER, 0, b"", b""),
    ("no words", [], HEADER, 1, b"", b"css: usage\n"),
    ("another word", [b"reply"], HEADER, 1, b"", b"css: usage\n"),
    ("a word too many", [b"replay", b"now"], HEADER, 1, b"", b"css: usage\n"),
    ("a word that isn't UTF-8", [b"replay\xff"], HEADER, 1, b"", b"css: usage\n"),
    ("a second word that isn't UTF-8", [b"replay", b"\xc0\x80"], HEADER, 1, b"", b"css: usage\n"),
    ("nothing", [b"replay"], b"", 2, b"", b"css: line 1: form\n"),
    ("form", [b"replay"], HEADER + EXCHANGE + b"speed\n", 2, b"6 wall 5197 5603 at 5400\n", b"css: line 7: form\n"),
    ("absent", [b"replay"], HEADER + b"1000 4800 1000 ask 1000\n1200 5000 1200 take 2 5000\n", 2, b"",
     b"css: line 3: absent\n"),
    ("long", [b"replay"], HEADER + b"x" * 4097 + b"\n", 2, b"", b"css: line 2: long\n"),
    ("drift", [b"replay"], HEADER + b"0 100 0 ask 0\n10 111 10 wall 10\n20 122 20 wall 20\n", 3,
     b"3 none NoAnswer\n", b"css: line 4: broken with line 2 by 256000000\n"),
    ("precision", [b"replay"], HEADER + b"1000 4800 1000 ask 1000\n1200 5000 1200 take 1 5002\n", 3,
     b"", b"css: line 3: broken with line 3 by 1\n"),
    ("time", [b"replay"], HEADER + b"1000 4800 1000 wall 1000\n999 4800 1000 wall 1000\n", 3,
     b"2 none NoAnswer\n", b"css: line 3: broken with line 2 by 1\n"),
]


def run(words, **streams):
    return subprocess.run([os.fsencode(PROGRAM), *words], stderr=subprocess.PIPE, timeout=120, **streams)


def told(errors):
    """What stands on standard error, but for hints."""
    return b"".join(line for line in errors.splitlines(keepends=True) if not line.startswith(b"css: hint: "))


def outcomes():
    for name, words, given, *wanted in ROWS:
        ran = run(words, input=given, stdout=subprocess.PIPE)
        yield name, [ran.returncode, ran.stdout, told(ran.stderr)], wanted
    with open(os.devnull, "wb") as unread:
        ran = run([b"replay"], stdin=unread, stdout=subprocess.PIPE)
    yield "read fault", [ran.returncode, ran.stdout, told(ran.stderr)], [4, b"", b"css: read fault\n"]
    ran = run([b"replay"], stdin=subprocess.DEVNULL, stdout=subprocess.PIPE, preexec_fn=lambda: os.close(0))
    yield "closed input", [ran.returncode, ran.stdout, told(ran.stderr)], [4, b"", b"css: read fault\n"]
    with open("/dev/full", "wb") as full:
        ran = run([b"replay"], input=HEADER + EXCHANGE, stdout=full)
        yield "write fault", [ran.returncode, told(ran.stderr)], [5, b"css: write fault\n"]
        ran = subprocess.run([os.fsencode(PROGRAM), b"reply"], stdin=subprocess.DEVNULL, stderr=full, timeout=120)
        yield "a full standard error", [ran.returncode], [1]
    ran = run([b"replay"], input=asks(), stdout=subprocess.PIPE, preexec_fn=limited)
    yield "memory", [ran.returncode, ran.stdout, told(ran.stderr)], [14, b"", b"css: memory\n"]


def main():
    failed = 0
    for name, found, wanted in outcomes():
        if found != wanted:
            failed += 1
            print(f"{name}: {found}, where {wanted} was wanted")
        else:
            print(f"{name}: status {found[0]}")
    sys.exit(1 if failed else 0)


main()
