#!/usr/bin/env python3
"""Proves and builds the program that these words need, where it is old, and then runs it with them.

    tools/build.py [WORDS]        CSS_JOBS, if it is set, is how many provers run at a time
    tools/build.py --prove        builds css, runs nothing, and says how long it took

A replay needs no network. While css isn't built, css_first answers it, which stands on half the crates.

Each crate is proved by `rattle build` over the libraries below it, as many at a time as there are processors and memory
for. A library that is proved is kept in crates/css/out/libraries, beside the sum of all that it was made of: so an
interrupt loses little, and a later build proves what has changed and what stands on it.
"""
import contextlib
import fcntl
import functools
import hashlib
import os
import re
import shutil
import signal
import subprocess
import sys
import tempfile
import time
from pathlib import Path

TOP = Path(__file__).resolve().parent.parent
OUT = TOP / "crates" / "css" / "out"
LIBRARIES = OUT / "libraries"
# the status where the program can't be built
CANNOT = 70
# the most memory that a prover was seen to take, in KiB
NEEDED = 2_000_000


def rt(word):
    """What the kit's command rt says of itself."""
    return subprocess.run(["rt", word], cwd=TOP, capture_output=True, text=True, check=True).stdout.strip()


class Graph:
    """The crates of the repository, and the libraries that each names, of the kit and of the repository."""

    def __init__(self):
        rows = [row.partition("#")[0].partition(":") for row in (TOP / "crates.txt").read_text().splitlines()]
        self.named = {name.split()[0]: deps.split() for name, _, deps in rows if name.strip()}

    def below(self, crate):
        """The repository's libraries that a crate names."""
        return [dep for dep in self.named[crate] if dep in self.named]

    @functools.cache
    def closure(self, crate):
        """A crate and all crates below it."""
        return {crate}.union(*(self.closure(dep) for dep in self.below(crate)))


def program_at(name):
    """Where the program of a crate is put once it is proved and built."""
    return TOP / "crates" / name / "out" / "proved" / name


def is_old(program):
    """Whether there is no such program, or a source is newer."""
    if not program.is_file():
        return True
    newest = program.stat().st_mtime
    if (TOP / "crates.txt").stat().st_mtime > newest:
        return True
    for folder, folders, files in os.walk(TOP / "crates"):
        folders[:] = [name for name in folders if name != "out"]
        if any(os.stat(os.path.join(folder, name)).st_mtime > newest for name in files):
            return True
    return False


@contextlib.contextmanager
def alone():
    """One build at a time: the lock ends with its holder. A signal ends a build as an error does, with its provers."""
    for number in (signal.SIGTERM, signal.SIGHUP):
        signal.signal(number, lambda number, _: sys.exit(128 + number))
    OUT.mkdir(exist_ok=True)
    with open(OUT / "build.lock", "w") as lock:
        fcntl.flock(lock, fcntl.LOCK_EX)
        yield


def lanes():
    """How many provers may run at a time."""
    if os.environ.get("CSS_JOBS", "").isdigit():
        return max(int(os.environ["CSS_JOBS"]), 1)
    free = next(row for row in Path("/proc/meminfo").read_text().splitlines() if row.startswith("MemAvailable"))
    return max(min(len(os.sched_getaffinity(0)), int(free.split()[1]) // NEEDED), 1)


class Prover:
    """Proves a crate and all below it as they stand when it begins: it works on a copy, in a folder that is removed. A
    crate that is none of the repository's stands there already, and names these libraries."""

    def __init__(self, room, crate, kind, made, libraries=()):
        self.room, self.top, self.kind, self.made = Path(room), crate, kind, made
        self.graph, self.running, self.libraries = Graph(), {}, LIBRARIES
        self.kit, self.version, self.lanes = Path(rt("doc")).parent, rt("version"), lanes()
        self.graph.named.setdefault(crate, [*libraries])
        self.crates = self.graph.closure(crate)
        for name in self.crates:
            skipped = shutil.ignore_patterns("out", "must-fail")
            if not (self.room / name).is_dir():
                shutil.copytree(TOP / "crates" / name, self.room / name, ignore=skipped)

    @functools.cache
    def sum(self, crate):
        """The sum of all that a crate's library is made of."""
        files = sorted(path for path in (self.room / crate).rglob("*") if path.is_file())
        parts = [self.version, crate, *self.graph.named[crate], *map(self.sum, self.graph.below(crate))]
        parts += [part for path in files for part in (str(path.relative_to(self.room)), path.read_text())]
        return hashlib.sha256("\0".join(parts).encode()).hexdigest()

    def is_kept(self, crate):
        """Whether the library of just these sources stands."""
        file = self.libraries / f"{crate}.sum"
        return crate != self.top and file.is_file() and file.read_text() == self.sum(crate)

    @functools.cache
    def behind(self, crate):
        """How many lines are proved one after the other, from this crate to the last that waits for it."""
        above = [it for it in self.crates if crate in self.graph.below(it)]
        lines = sum(path.read_text().count("\n") for path in (self.room / crate).rglob("*.*t"))
        return lines + max(map(self.behind, above), default=0)

    def start(self, crate, jobs):
        """Starts the prover of a crate. A library counts as kept only once its prover is done."""
        kind, made = self.kind, self.made
        if crate != self.top:
            (self.libraries / f"{crate}.sum").unlink(missing_ok=True)
            kind, made = ["src/lib.rt", "--statements"], self.libraries / f"{crate}.rlib"
        words = [self.kit / "bin/rattle", "build", f"--crate-name={crate}", f"--links={crate}=", *kind, "-o", made]
        for dep in ["std", *self.graph.named[crate]]:
            place = self.libraries if dep in self.graph.named else self.kit / "rlibs"
            words += ["--extern", f"{dep}={place / dep}.rlib"]
        words += ["-L", f"dependency={self.kit / 'rlibs'}", "-L", f"dependency={self.libraries}", "--jobs", str(jobs)]
        words += ["--antt-project", self.kit / "rattle/logic/antt-project.json"]
        words += ["--logic-built", self.kit / "logic_built", "--toolchain", self.kit / "toolchain"]
        how = {"stdin": subprocess.DEVNULL, "stderr": subprocess.STDOUT, "start_new_session": True}
        with open(self.room / f"{crate}.log", "w") as log:
            self.running[crate] = subprocess.Popen(words, cwd=self.room / crate, stdout=log, **how), jobs

    def take_ended(self):
        """Keeps the libraries whose provers have ended; ends at the first crate that isn't proved."""
        for crate in [it for it, (prover, _) in self.running.items() if prover.poll() is not None]:
            if self.running.pop(crate)[0].returncode:
                refuse(crate, (self.room / f"{crate}.log").read_text(errors="replace"))
            if crate != self.top:
                (self.libraries / f"{crate}.sum").write_text(self.sum(crate))

    def prove(self):
        """Proves each crate after those below it, first those for which most others wait."""
        self.libraries.mkdir(parents=True, exist_ok=True)
        left = sorted((it for it in self.crates if not self.is_kept(it)), key=self.behind, reverse=True)
        progress = Progress(len(self.crates))
        try:
            while left or self.running:
                waits = {*left, *self.running}
                ready = [it for it in left if not waits.intersection(self.graph.below(it))]
                for others, crate in zip(reversed(range(len(ready))), ready):
                    idle = self.lanes - sum(jobs for _, jobs in self.running.values())
                    if idle > 0:
                        left.remove(crate)
                        # Two jobs take half as much processor time again as one: so only what would be idle is given.
                        self.start(crate, max(idle - others, 1))
                progress.tell(len(left), [*self.running])
                time.sleep(0.2)
                self.take_ended()
        finally:
            progress.end()
            for prover, _ in self.running.values():
                os.killpg(prover.pid, signal.SIGKILL)
                prover.wait()


class Progress:
    """Tells how far the build is: on a terminal each second, in one line, and else where there is news."""

    def __init__(self, crates):
        self.crates, self.begun, self.told = crates, time.time(), None
        self.is_terminal = sys.stderr.isatty()

    def tell(self, left, running):
        proved = self.crates - left - len(running)
        news = f"css: {proved} of {self.crates} crates proved{', now ' * bool(running)}{' '.join(sorted(running))}"
        line = f"{news}, {int(time.time() - self.begun) // 60} min"
        if self.is_terminal:
            width = shutil.get_terminal_size().columns - 1
            print(f"\r\033[K{line[:width]}", end="", file=sys.stderr, flush=True)
        elif news != self.told:
            print(line, file=sys.stderr, flush=True)
        self.told = news

    def end(self):
        if self.is_terminal and self.told:
            print(file=sys.stderr)


def refuse(crate, said):
    """Ends with the crate that isn't proved and the prover's first words on it."""
    lines = [line for line in said.splitlines() if not re.match("(statements|library|checked) |.*: proved$", line)]
    print(*lines[-40:], sep="\n", file=sys.stderr)
    words = (": error|error\\[", "not proved|no proof", "")
    why = next((line for it in words for line in lines if re.search(it, line)), "it said nothing")
    print(f"css: {crate} is not proved: {why}", file=sys.stderr)
    sys.exit(CANNOT)


def link(kit, made, program):
    """Makes a program of what the compiler made."""
    words = ["--target", "x86_64-unknown-linux-gnu", "--toolchain", kit / "toolchain", "-o", program, made]
    archives = [kit / "c" / name for name in ("libos_c.a", "liblibc_c.a")]
    subprocess.run([kit / "bin/rattle-link", *words, *archives], stdout=subprocess.DEVNULL, check=True)


def build(program):
    """Builds beside the program that stands, and puts the new one in its place. One that fails leaves the old one."""
    begun = time.time()
    with tempfile.TemporaryDirectory(prefix="css-room-") as room:
        made, linked = Path(room) / "made.o", Path(room) / "linked"
        # the kit's own compiler is done sooner than LLVM, and css_first is wanted soon
        backend = "llvm" if program.name == "css" else "rattle"
        prover = Prover(room, program.name, ["src/main.rt", "--backend", backend], made)
        why = "the sources have changed since the last build" if program.is_file() else "this is the first build"
        part = "" if program.name == "css" else f", which is what a replay needs of {len(prover.graph.closure('css'))}"
        print(f"css: {why}: proving {len(prover.crates)} crates{part}", file=sys.stderr)
        print("css: ./css --try WORDS runs the same words without proofs", file=sys.stderr, flush=True)
        prover.prove()
        link(prover.kit, made, linked)
        program.parent.mkdir(parents=True, exist_ok=True)
        new = program.with_suffix(".new")
        shutil.copy(linked, new)
    os.utime(new, (begun, begun))
    new.replace(program)


def since(begun):
    """How long it is since then, in words."""
    seconds = int(time.time() - begun)
    return f"{seconds // 60} min {seconds % 60} s"


def main(words):
    if words == ["--help"]:
        print(__doc__)
        return
    begun = time.time()
    try:
        with alone():
            program = program_at("css")
            if is_old(program):
                program = program_at("css_first") if words == ["replay"] else program
                if is_old(program):
                    build(program)
    except KeyboardInterrupt:
        sys.exit(130)
    except FileNotFoundError as error:
        sys.exit(f"css: {error.filename} isn't found")
    if words == ["--prove"]:
        print(f"css: {program.relative_to(TOP)} is proved and built, after {since(begun)}", file=sys.stderr)
        return
    os.execv(program, [str(program), *words])


if __name__ == "__main__":
    main(sys.argv[1:])
