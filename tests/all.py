#!/usr/bin/env python3
"""Runs every check that judges, on the program that `rt ci` built, side by side.

    tests/all.py [NAME ..]     all of them, or those alone whose names have one of these words in them

These are the scripts of this folder that can be run, but for this one, and those of docs/ that check. Where $CSS is set
it is the program, and `rt ci` isn't needed. First tests/needs installs what is missing, where it may.

Each check has a line: that it is ok, or FAILED, or was skipped and why, and its seconds. What a failed one wrote comes
behind its line, and what one couldn't try stands below it. The last line is `N passed, M failed`, and behind that how
much was skipped, if anything was. The status is 1 where one failed.
"""
import concurrent.futures
import os
import signal
import subprocess
import sys
import time

sys.dont_write_bytecode = True
import own_network
from checks import TOP

sys.path.insert(0, str(TOP / "tools"))
import build

PROGRAM = TOP / "crates" / "css" / "out" / "css"
DOCS = (["docs/check.py"], ["docs/claims.py"], ["docs/sizes.py"], ["docs/trusted.py", "--check"])
# What a script is told besides.
WORDS = dict.fromkeys(["tests/drives.py", "tests/library.py", "tests/python.py"], ["--over-gate"])
# The sessions of the pages have ports that somebody else may have.
IN_OWN_NETWORK = {"docs/check.py"}
LIMIT = 1800  # Only what hangs takes so many seconds.
RUNNING = set()


def scripts():
    """The words that run each check: a script and what it is told."""
    own = (path for path in sorted((TOP / "tests").glob("*.py")) if os.access(path, os.X_OK))
    names = [str(path.relative_to(TOP)) for path in own if path.name != "all.py"]
    return [*DOCS, *([name, *WORDS.get(name, [])] for name in names)]


def program():
    """The program that is tried: $CSS, or what `rt ci` left, where it is as new as its sources. Else why there is
    none."""
    if os.environ.get("CSS"):
        return os.path.abspath(os.environ["CSS"]), ""
    place = PROGRAM.relative_to(TOP)
    if not PROGRAM.is_file():
        return "", f"there is no {place}: run `rt ci` first, or set CSS to a program"
    return str(PROGRAM), f"{place} is older than its sources: run `rt ci` first" if build.is_old(PROGRAM) else ""


def run(words):
    """How a check ends: its status, None where it took too long; what it wrote; and its seconds."""
    begun, command = time.monotonic(), [sys.executable, *words]
    if words[0] in IN_OWN_NETWORK and not own_network.why_not():
        command = own_network.alone(command)
    how = {"stdin": subprocess.DEVNULL, "stdout": subprocess.PIPE, "stderr": subprocess.STDOUT}
    child = subprocess.Popen(command, cwd=TOP, start_new_session=True, **how)
    RUNNING.add(child)
    try:
        said, status = child.communicate(timeout=LIMIT)[0], child.returncode
    except subprocess.TimeoutExpired:
        os.killpg(child.pid, signal.SIGKILL)
        said, status = child.communicate()[0], None
    RUNNING.discard(child)
    return status, said.decode(errors="replace"), time.monotonic() - begun


def tell(words, status, said, seconds):
    """Tells how a check ended: whether it made any, and how many things it skipped."""
    lines = said.splitlines()
    skipped = [line for line in lines if line.startswith("skipped ")]
    is_made = status or len(skipped) < len([line for line in lines if not line.startswith("0 checks")])
    print(f"{'FAILED ' if status else 'ok     ' if is_made or not lines else 'skipped'} {words[0]}, {seconds:.0f} s")
    if status:
        print(said)
    for line in skipped:
        print(f"        {line}")
    sys.stdout.flush()
    return bool(is_made or not lines), len(skipped)


def main(names):
    os.environ["CSS"], why = program()
    if why:
        print(f"tests/all.py: {why}\n0 passed, 1 failed")
        return 1
    os.environ.setdefault("CSS_JOBS", "1")  # The others are beside a proof.
    subprocess.run(["sh", TOP / "tests" / "needs"], stdin=subprocess.DEVNULL, check=False)
    chosen = [words for words in scripts() if not names or any(name in words[0] for name in names)]
    passed, failed, skipped = 0, [], 0
    with concurrent.futures.ThreadPoolExecutor(len(chosen) or 1) as pool:
        ends = {pool.submit(run, words): words for words in chosen}
        try:
            for end in concurrent.futures.as_completed(ends):
                status, said, seconds = end.result()
                if status is None:
                    status, said = 1, f"{said}\ntests/all.py: not done after {LIMIT} s"
                is_made, more = tell(ends[end], status, said, seconds)
                skipped += more
                passed += is_made and not status
                failed += [ends[end][0]] if status else []
        finally:
            for child in list(RUNNING):
                os.killpg(child.pid, signal.SIGKILL)
    if failed:
        print(f"tests/all.py: FAILED: {' '.join(sorted(failed))}")
    print(f"{passed} passed, {len(failed)} failed{f', {skipped} skipped' if skipped else ''}", flush=True)
    return 1 if failed else 0


if __name__ == "__main__":
    sys.exit(main(sys.argv[1:]))
