"""What the scripts of this folder share: the program that they try, their ports, and how their checks are told."""
import os
import pathlib
import shutil
import socket
import subprocess

TOP = pathlib.Path(__file__).resolve().parent.parent
HELD = []


def program(words):
    """The words of the program before its command: these, or $CSS, or ./css, which builds it."""
    return words or [os.environ.get("CSS") or str(TOP / "css")]


def css(named=None):
    """The path of the program: this one, or $CSS; or else the proved one, which `./css` builds where it is missing or
    older than its sources."""
    named = named or os.environ.get("CSS")
    if not named:
        subprocess.run([TOP / "css", "replay"], input=b"css-schedule 1 plain 0 -30 0 0 x -\n", check=True)
    return named or str(TOP / "crates" / "css" / "out" / "proved" / "css")


def without_kit(room, program=None):
    """A copy of ./css with what it calls and nothing to build, and the environment of a machine without the kit. This
    program counts there as the proved one."""
    top, words = room / "top", room / "commands"
    for name in ("docs", "tools", "examples", "javascript"):
        shutil.copytree(TOP / name, top / name, ignore=shutil.ignore_patterns("__pycache__"))
    for name in ("css", "crates.txt"):
        shutil.copy2(TOP / name, top / name)
    place = top / "crates" / "css" / "out" / "proved"
    place.mkdir(parents=True)
    if program:
        shutil.copy(program, place / "css")
    words.mkdir()
    for name in ("awk", "cat", "dirname", "find", "git", "head", "python3", "readlink", "sh"):
        if shutil.which(name):
            (words / name).symlink_to(shutil.which(name))
    return top, {**os.environ, "PATH": str(words), "CSS": ""}


def ports():
    """The first of a hundred ports that are this run's. A name that one run alone can have keeps others away."""
    for at in range(200):
        first = 10000 + (os.getpid() + at) % 200 * 100
        name = socket.socket(socket.AF_UNIX)
        try:
            name.bind(f"\0css-tests-{first}")
        except OSError:
            name.close()
            continue
        HELD.append(name)
        return first
    raise SystemExit("no hundred ports are free")


class Checks:
    """Tells each check as it is made, and counts them."""

    def __init__(self):
        self.made, self.failed, self.skipped = 0, 0, 0

    def __call__(self, name, holds, told=""):
        self.made += 1
        self.failed += not holds
        print(("ok      " if holds else "FAILED  ") + name + (f": {told}" if told != "" else ""), flush=True)

    def skip(self, name, why):
        """Tells what can't be tried here. tests/all.py names and counts it."""
        self.skipped += 1
        print(f"skipped {name}: {why}", flush=True)

    def end(self):
        """Tells how it went. The exit status."""
        skipped = f", {self.skipped} skipped" if self.skipped else ""
        print(f"{self.made} checks, {self.failed} failed{skipped}")
        return 1 if self.failed else 0
