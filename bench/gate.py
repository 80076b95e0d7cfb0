#!/usr/bin/env python3
"""Runs the gate, `rt ci`, in a checkout, and tells its processor minutes: what each crate, its tests and its edits take.

    bench/gate.py [FOLDER]        the checkout, this one if left out; what the gate says goes to FOLDER/out/gate.log

What an earlier run on this machine has passed is kept and costs nothing, so a comparison of two trees begins on a
machine that has kept nothing, or takes `rt ci --anew` by GATE='rt ci --anew'. Nothing else is to run beside it.

The prover's processes are looked at twice a second, so the last half second of each is missed. The sum at the end is
the system's own count.
"""
import collections
import os
import resource
import signal
import subprocess
import sys
import time
from pathlib import Path

SECOND = os.sysconf("SC_CLK_TCK")
PARTS = ("library", "tests", "edits", "program")


def value_of(words, flag):
    """The word behind a flag, or none."""
    return words[words.index(flag) + 1] if flag in words[:-1] else ""


def part_of(words, folder):
    """Which part of the gate a prover's words are: it tries edits in folders of their own."""
    if "/rt-edit" in folder:
        return "edits"
    if "--test" in words:
        return "tests"
    return "program" if "src/main.rt" in words else "library"


def provers(session):
    """Each prover of a session: what tells it from others, its crate, its part, its seconds and its bytes."""
    for entry in Path("/proc").iterdir():
        if not entry.name.isdigit():
            continue
        try:
            words = (entry / "cmdline").read_text().split("\0")
            if Path(words[0]).name != "rattle" or not value_of(words, "--crate-name"):
                continue
            # behind the name, which may have spaces
            fields = (entry / "stat").read_text().rpartition(")")[2].split()
            folder = os.readlink(entry / "cwd")
        except OSError:
            continue
        if fields[3] != session:
            continue
        seconds = (int(fields[11]) + int(fields[12])) / SECOND
        size = int(fields[21]) * resource.getpagesize()
        yield (entry.name, fields[19]), value_of(words, "--crate-name"), part_of(words, folder), seconds, size


def watch(gate):
    """The seconds of each crate's parts, and the most bytes that one prover had."""
    seen, most = {}, 0
    while gate.poll() is None:
        for key, crate, part, seconds, size in provers(str(gate.pid)):
            seen[key] = crate, part, seconds
            most = max(most, size)
        time.sleep(0.5)
    spent = collections.defaultdict(float)
    for crate, part, seconds in seen.values():
        spent[crate, part] += seconds
    return spent, most


def main(folder):
    begun = time.time()
    (folder / "out").mkdir(exist_ok=True)
    with open(folder / "out" / "gate.log", "w") as log:
        how = {"cwd": folder, "stdin": subprocess.DEVNULL, "stdout": log, "stderr": subprocess.STDOUT}
        how["start_new_session"] = True
        gate = subprocess.Popen(os.environ.get("GATE", "rt ci").split(), **how)
        try:
            spent, most = watch(gate)
        finally:
            if gate.poll() is None:
                os.killpg(gate.pid, signal.SIGTERM)
    minutes = (time.time() - begun) / 60
    print(f"{'crate':24}" + "".join(f"{part:>9}" for part in PARTS))
    for crate in sorted({crate for crate, _ in spent}, key=lambda it: -sum(spent[it, part] for part in PARTS)):
        print(f"{crate:24}" + "".join(f"{spent[crate, part]:9.0f}" for part in PARTS))
    for part in PARTS:
        sum_of = sum(seconds for (_, other), seconds in spent.items() if other == part)
        print(f"{part}: {sum_of / 60:.1f} processor minutes")
    used = resource.getrusage(resource.RUSAGE_CHILDREN)
    print(f"all: {(used.ru_utime + used.ru_stime) / 60:.1f} processor minutes in {minutes:.1f} minutes")
    print(f"the greatest prover: {most / 1e9:.1f} GB; the gate's status: {gate.returncode}")
    return gate.returncode


if __name__ == "__main__":
    sys.exit(main(Path(sys.argv[1] if len(sys.argv) > 1 else Path(__file__).parents[1]).resolve()))
