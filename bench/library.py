#!/usr/bin/env python3
"""Counts what the calls of the library for applications cost.

    bench/library.py DIR        where DIR is a folder that `./css --library DIR` made

Printed are the instructions of each call, counted by callgrind, and how often it takes memory. What is made beside a
call is taken off. How long the library's code is comes last.
"""
import re
import subprocess
import sys
import tempfile
from pathlib import Path

HERE = Path(__file__).resolve().parent
# each call with what is made beside it, which is taken off
CALLS = {"ask": "answered", "exchange": "ask", "late": "nothing", "wall": "nothing", "position": "nothing",
         "lead": "nothing", "when": "nothing", "until": "nothing", "snapshot": "nothing", "copied": "nothing",
         "slept": "nothing", "timeline": "nothing", "setup": "nothing", "ts_closed": "nothing", "control": "nothing",
         "spaced": "nothing", "cii": "nothing", "agreed": "nothing", "next": "nothing", "due": "exchanged"}
NAMES = {"exchange": "land", "late": "land, for the oldest of 64 requests", "copied": "snapshot position",
         "control": "control, as css writes it", "spaced": "control, with spaces", "due": "next, after a response"}
COUNT = 200


def counted(program, room, call, count):
    """The instructions of a run with so many calls, and how often they took memory."""
    words = ["valgrind", "--tool=callgrind", f"--callgrind-out-file={room}/out", program, call, str(count)]
    ran = subprocess.run(words, capture_output=True, text=True, check=True)
    return int(re.search(r"Collected : (\d+)", ran.stderr)[1]), int(ran.stdout)


def main(words):
    library = Path(words[0]).resolve()
    with tempfile.TemporaryDirectory() as room:
        program = f"{room}/library"
        command = ["gcc", "-O2", "-Wl,--wrap=malloc,--wrap=realloc", f"-I{library}/include", "-o", program]
        subprocess.run([*command, HERE / "library.c", f"-L{library}/lib", "-lcss_companion"], check=True)
        for call, beside in CALLS.items():
            (cost, taken), (less, _) = (counted(program, room, each, COUNT) for each in (call, beside))
            name = NAMES.get(call, call)
            print(f"{name}: {(cost - less) // COUNT} instructions, {taken / COUNT:g} times memory", flush=True)
        sized = subprocess.run(["size", "-t", library / "lib" / "libcss_companion.a"], capture_output=True, text=True)
        archive = (library / "lib" / "libcss_companion.a").stat().st_size
        print(f"code: {int(sized.stdout.splitlines()[-1].split()[0]) // 1024} KB, the archive {archive} bytes")
    return 0


if __name__ == "__main__":
    sys.exit(main(sys.argv[1:]))
