#!/usr/bin/env python3
"""Counts the instructions of a quiet turn of each end.

    bench/turns.py [PROGRAM]     the program of tests/drives.py, where an earlier run built it; else it is built

A quiet turn is one in which nothing comes: of a television with 256 sessions, and of a companion or a relay whose
sessions are open. Its instructions are those by which 3,000 turns differ from 1,000, counted by callgrind.
"""

import re
import subprocess
import sys
import tempfile
from pathlib import Path

import programs  # noqa: F401 (it names tests/)
import drives


def instructions(program, kind, turns):
    """The instructions of a run of so many quiet turns."""
    words = ["valgrind", "--tool=callgrind", "--callgrind-out-file=/dev/null", program, kind, str(turns)]
    ran = subprocess.run(words, stdin=subprocess.DEVNULL, capture_output=True, text=True, check=True)
    return int(re.search(r"refs: +([0-9,]+)", ran.stderr).group(1).replace(",", ""))


def main():
    with tempfile.TemporaryDirectory() as folder:
        program = sys.argv[1] if sys.argv[1:] else drives.build(Path(folder), False)
        for kind in ["quiet_companion", "quiet_relay", "quiet_tv"]:
            less, more = (instructions(program, kind, turns) for turns in (1000, 3000))
            print(f"{kind}: {(more - less) // 2000} instructions a turn")


if __name__ == "__main__":
    main()
