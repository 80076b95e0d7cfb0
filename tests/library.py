#!/usr/bin/env python3
"""Builds programs over the library for companion applications with the machine's gcc and cargo, and runs them.

    tests/library.py [--over-gate] [--into DIR] [CSS..]

The library is built first, by tools/library.py, into DIR or a folder that is thrown away; with --over-gate over the
libraries that `rt ci` left. What runs, side by side, and under valgrind where there is one:

- each call and each misuse from C, with the exchange of `css replay`'s first example;
- each allocation refused in turn;
- random calls, under the address sanitizer instead;
- the header in C++, and for an ARM machine;
- each call once more, by the library of the Debian package, and by the shared object, which exports these calls alone;
- on ARM, which qemu plays: each call, the random calls, which tell the same there, and examples/follow;
- docs/LIBRARY.md's loop in C, as it stands there, beside a television with 60 ms of delay: over a tick that is waited
  for, while CII closes its session and the television goes away for a while. It asks at most twice a second;
- the tests of the Rust package, there too, and that page's loop in Rust, which is compiled;
- examples/follow and examples/player. They follow a television on loopback that is paused and sought, and whose TS
  session is closed and opened again: one by hand, or that of css where CSS, or $CSS, is a command that runs it.

A machine that lacks valgrind, cargo or a compiler is told what was skipped. The status is 0 where all is well.
"""
import os
import re
import shutil
import socket
import subprocess
import sys
import tempfile
import threading
import time
from pathlib import Path

sys.dont_write_bytecode = True
import live_server
from checks import TOP, Checks, ports

sys.path.insert(0, str(TOP / "tools"))
from package import pack_library, pack_plain

live_server.OFFSET = 0

PAGE = TOP / "docs" / "LIBRARY.md"
TESTS, EXAMPLES = TOP / "tests" / "library", TOP / "examples"
RANDOM_CALLS = "1000000"
REPORTS = "60"
# how many reports they make, and after how many they close their TS session
WORDS = [REPORTS, "30"]
WRAPPED = "-Wl,--wrap=malloc,--wrap=realloc,--wrap=free"
ARM, ARM_HEADER = "aarch64-linux-gnu-gcc", "/usr/aarch64-linux-gnu/include/time.h"
ARM_TARGET = "aarch64-unknown-linux-gnu"
EMULATED = ["qemu-aarch64", "-L", "/usr/aarch64-linux-gnu"]
WARNINGS = ["-Wall", "-Wextra", "-Werror"]
# What the television shows: nanoseconds from its start, and what happens then.
SCRIPT = [
    (0, "programme dvb://233a.1004.1044"),
    (0, "timeline 1 urn:dvb:css:timeline:pts 1 90000 900000"),
    (0, "change 1"),
    (8_000_000_000, "speed 0"),
    (12_000_000_000, "speed 1"),
    (16_000_000_000, "seek 30000000000"),
]


def script():
    """The script's text. Its times are those of the machine's clock, so it is made where the television starts."""
    begun = time.monotonic_ns()
    return "".join(f"{begun + after if after else 0} {what}\n" for after, what in SCRIPT).encode()


class Program:
    """The television of css, with the script."""

    def __init__(self, css, port):
        words = ["tv", "--port", str(port), "--seconds", "120"]
        self.child = subprocess.Popen([*css, *words], stdin=subprocess.PIPE)
        self.child.stdin.write(script())
        self.child.stdin.close()
        for _ in range(200):
            try:
                socket.create_connection(("127.0.0.1", port)).close()
                return
            except OSError:
                time.sleep(0.1)

    def end(self):
        self.child.kill()
        self.child.wait()


class Television(live_server.Server):
    """One by hand, which does as the script says. Its wall clock is the machine's."""

    def cii(self, peer):
        peer.say(live_server.state_of(self.port))

    def ts(self, peer):
        peer.hear()
        content, speed, at = live_server.START, 1, self.began
        for after, what in SCRIPT:
            verb, *words = what.split()
            now = self.began + after
            time.sleep(max(0, now - time.monotonic_ns()) / 1e9)
            content, at = content + speed * (now - at) * 90000 // 10**9, now
            if verb == "speed":
                speed = int(words[0])
            if verb == "seek":
                content = live_server.START + int(words[0]) * 90000 // 10**9
            control = {"contentTime": str(content), "wallClockTime": str(now), "timelineSpeedMultiplier": speed}
            peer.say(control)


class Distant(live_server.Server):
    """One whose datagrams take 60 ms. Its first session of CII closes soon, and then it's away for a while."""
    DELAY, AWAY, BACK = 0.06, 3, 6

    def __init__(self, port):
        super().__init__(port, "")
        self.asked = 0

    def is_away(self):
        return self.AWAY <= (live_server.wall() - self.began) / 1e9 < self.BACK

    def clock(self):
        while not self.ends:
            try:
                data, sender = self.udp.recvfrom(64)
            except (OSError, ValueError):
                return
            self.asked += 1
            if not self.is_away():
                threading.Timer(self.DELAY / 2, self.answer, (data, sender)).start()

    def answer(self, data, sender):
        now = live_server.stamp(live_server.wall())
        answer = bytes([0, 1, 0xec, 0]) + (128000).to_bytes(4, "big") + data[8:16] + now + now
        threading.Timer(self.DELAY / 2, self.udp.sendto, (answer, sender)).start()

    def greet(self, name, conn):
        if self.is_away():
            conn.close()
        else:
            super().greet(name, conn)

    def cii(self, peer):
        peer.say(live_server.state_of(self.port))
        if live_server.wall() - self.began < self.AWAY * 1e9:
            time.sleep(max(0, self.AWAY - (live_server.wall() - self.began) / 1e9))
            peer.say((1001).to_bytes(2, "big"), live_server.CLOSE)

    def ts(self, peer):
        peer.hear()
        peer.say(self.control())


def blocks_of(page, language):
    """The blocks of a language on a page, in their order."""
    return [part.split("```")[0] for part in page.read_text().split(f"```{language}\n")[1:]]


class Suite:
    def __init__(self, library, room, over):
        self.library, self.room, self.over, self.check = library, room, over, Checks()
        self.port = ports()
        # the runner of cargo's tests leaves blocks of its own, to which something still points
        memcheck = ["valgrind", "-q", "--leak-check=full", "--error-exitcode=9", "--errors-for-leak-kinds=definite"]
        self.valgrind = memcheck if self.has("valgrind", "what memory does") else []

    def has(self, command, what):
        """Whether the machine has a command, or a file; what can't be tried without it is skipped."""
        is_there = shutil.which(command) is not None or os.path.exists(command)
        if not is_there:
            self.check.skip(what, f"there is no {command}")
        return is_there

    def run(self, what, command, **more):
        """Runs a program, and tells whether it ended well. What it wrote."""
        done = subprocess.run(
            command, stdout=subprocess.PIPE, stderr=subprocess.STDOUT, text=True, timeout=600, check=False, **more
        )
        if done.returncode:
            print(done.stdout[-3000:])
        self.check(what, done.returncode == 0)
        return done.stdout

    def built(self, sources, *flags, compiler="gcc", library=None):
        """A program of these sources, linked with the library, or with this one."""
        library = library or self.library
        program = self.room / f"{sources[0].stem}-{compiler}-{len(flags)}"
        command = [compiler, "-O1", "-g", *WARNINGS, *flags, f"-I{library}/include", "-o", program, *sources]
        subprocess.run([*command, f"-L{library}/lib", "-lcss_companion"], check=True)
        return program

    def in_c(self):
        exchange = self.built([TESTS / "exchange.c"])
        self.run("each call and each misuse", [*self.valgrind, exchange])
        self.run("each allocation refused", [*self.valgrind, self.built([TESTS / "refused.c"], WRAPPED)])
        header = self.library / "include" / "css_companion.h"
        for compiler, words, needed in (("g++", ["-std=c++17", "-x", "c++"], "g++"), (ARM, ["-x", "c"], ARM_HEADER)):
            if self.has(compiler, f"the header by {compiler}") and self.has(needed, f"the header by {compiler}"):
                self.run(f"the header by {compiler}", [compiler, *words, *WARNINGS, "-fsyntax-only", header])

    def as_the_page_says(self):
        """The page's loop asks seldom, sleeps in between, and shows the question once its tick has come: never before,
        and within a second after it. Where a busy machine was late it is tried again."""
        yours, loop = [it for it in blocks_of(PAGE, "c") if "yours.h" in it]
        (self.room / "yours.h").write_text("#ifndef YOURS_H\n#define YOURS_H\n" + yours + "#endif\n")
        source = self.room / "loop.c"
        source.write_text(loop)
        sources = [source, TESTS / "yours.c", EXAMPLES / "follow" / "session.c"]
        program, seconds = self.built(sources, f"-I{self.room}", f"-I{EXAMPLES}/follow"), 10
        for at in range(3):
            told, late = self.shown(program, self.port + 10 + 2 * at, seconds)
            if late is None or late < 1:
                break
        self.check("the page's loop shows the question once it has surely come", late is not None and 0 <= late < 1,
                   (told, late))
        requests, used = (int(told[4]), int(told[8])) if late is not None else (0, 0)
        self.check("it asks at most twice a second", 0 < requests <= 2 * (seconds + 1), requests)
        self.check("it takes less than 1 % of a processor", used < seconds * 10, used)

    def shown(self, program, port, seconds):
        """What the page's loop tells of a question that comes after so many seconds, and how late it showed it; None
        where it didn't."""
        television = Distant(port)
        question = live_server.START + seconds * 90000
        ran = subprocess.run([program, f"ws://127.0.0.1:{port}/cii", str(question)],
                             stdout=subprocess.PIPE, text=True, timeout=60, check=False)
        television.end()
        told = ran.stdout.split()
        if ran.returncode != 0 or told[:2] != ["shown", "at"]:
            return told, None
        return told, (int(told[2]) + live_server.OFFSET - television.began) / 1e9 - seconds

    def packaged(self):
        """The library of the Debian packages, and its archive, whose symbols of debugging are taken off."""
        if not all(self.has(it, "the library's Debian packages") for it in ("dpkg-deb", "strip")):
            return
        pack_library(self.room, self.room / "trees", self.library)
        pack_plain(self.room, self.room / "trees")
        place, program = self.room / "unpacked", self.room / "by_package"
        for package in self.room.glob("*.deb"):
            subprocess.run(["dpkg-deb", "-x", package, place], check=True)
        folder = next(place.rglob("libcss_companion.a")).parent
        for name, kind in (("-lcss_companion", "shared object"), ("-l:libcss_companion.a", "archive")):
            command = ["gcc", *WARNINGS, f"-I{place}/usr/include", "-o", program, TESTS / "exchange.c", f"-L{folder}"]
            subprocess.run([*command, name], check=True)
            paths = {**os.environ, "LD_LIBRARY_PATH": str(folder)}
            self.run(f"each call and each misuse, by the Debian packages' {kind}", [program], env=paths)
        paths["PYTHONPATH"] = str(place / "usr/lib/python3/dist-packages")
        self.run("the Debian package for Python", [sys.executable, "-c", "import css_companion"], env=paths)

    def by_shared(self, compiler, library):
        """A program that goes by the shared object."""
        program = self.room / f"by_shared-{compiler}"
        subprocess.run([compiler, *WARNINGS, f"-I{library}/include", "-o", program, TESTS / "exchange.c",
                        library / "lib" / "libcss_companion.so.1"], check=True)
        return program

    def shared(self):
        """The shared object has its name and exports the header's calls; so does the archive."""
        header = (self.library / "include" / "css_companion.h").read_text()
        calls = sorted(re.findall(r"^(?!static)\w[\w ]*\**(css_\w+)\(", header, re.M))
        shared, archive = self.library / "lib" / "libcss_companion.so.1", self.library / "lib" / "libcss_companion.a"
        program = self.by_shared("gcc", self.library)
        paths = {**os.environ, "LD_LIBRARY_PATH": str(shared.parent)}
        self.run("each call and each misuse, by the shared object", [program], env=paths)
        if not self.has("readelf", "what the shared object exports"):
            return
        for file, kind in ((shared, "--dyn-syms"), (archive, "--syms")):
            told = subprocess.run(["readelf", "-W", kind, file], capture_output=True, text=True, check=True).stdout
            rows = [row.split() for row in told.splitlines() if re.match(r" +[0-9]+: ", row)]
            open_ones = [row[7].partition("@")[0] for row in rows if row[4] in ("GLOBAL", "WEAK") and
                         row[5] == "DEFAULT" and row[6] not in ("UND", "ABS")]
            self.check(f"{file.name} exports the header's calls alone", sorted(open_ones) == calls, len(open_ones))
        told = subprocess.run(["readelf", "-d", shared], capture_output=True, text=True, check=True).stdout
        self.check("the shared object has its name", "soname: [libcss_companion.so.1]" in told)

    def at_random(self):
        checked = self.built([TESTS / "random.c"], "-fsanitize=address,undefined")
        self.run(f"{RANDOM_CALLS} random calls", [checked, "1", RANDOM_CALLS])

    def on_arm(self, css):
        """What an ARM machine makes of the library for it."""
        what = "the library on ARM"
        if not all(self.has(it, what) for it in (ARM, ARM_HEADER, EMULATED[0])):
            return
        library = self.room / "arm"
        subprocess.run([TOP / "tools" / "library.py", *self.over, "--target", ARM_TARGET, library], check=True)
        on_arm = {"compiler": ARM, "library": library}
        self.run("each call and each misuse, on ARM", [*EMULATED, self.built([TESTS / "exchange.c"], **on_arm)])
        paths = ["-E", f"LD_LIBRARY_PATH={library}/lib"]
        self.run("and by the shared object", [*EMULATED, *paths, self.by_shared(ARM, library)])
        told = self.run(f"{RANDOM_CALLS} random calls, on ARM",
                        [*EMULATED, self.built([TESTS / "random.c"], **on_arm), "1", RANDOM_CALLS])
        here = subprocess.run([self.built([TESTS / "random.c"]), "1", RANDOM_CALLS], capture_output=True, text=True,
                              check=True).stdout
        self.check("they tell the same as on this machine", told == here and here, here.strip())
        follow = self.built([EXAMPLES / "follow" / "follow.c", EXAMPLES / "follow" / "session.c"], **on_arm)
        self.with_television(css, self.port + 6, f"{REPORTS} reports, on ARM",
                             lambda url: [*EMULATED, follow, url, *WORDS])
        self.rust_on_arm(library)

    def rust_on_arm(self, library):
        folder = subprocess.run(["rustc", "--print", "target-libdir", "--target", ARM_TARGET], capture_output=True,
                                text=True, check=False).stdout.strip() if shutil.which("rustc") else ""
        if not os.path.isdir(folder):
            self.check.skip("the Rust package on ARM", f"there is no standard library of Rust for {ARM_TARGET}")
            return
        ran = self.cargo(["test", "--target", ARM_TARGET], TOP / "rust" / "css-companion")
        name = ARM_TARGET.upper().replace("-", "_")
        more = {"CSS_COMPANION_DIR": library, f"CARGO_TARGET_{name}_LINKER": ARM,
                f"CARGO_TARGET_{name}_RUNNER": " ".join(EMULATED)}
        self.run("the Rust package's tests, on ARM", ran["args"], cwd=ran["cwd"], env={**ran["env"], **more})

    def cargo(self, words, folder):
        """A command of cargo, and the folder and environment that it runs in."""
        more = {"CSS_COMPANION_DIR": self.library, "CARGO_TARGET_DIR": self.room / "target" / folder.name}
        return {"args": ["cargo", *words, "--offline", "-q"], "cwd": folder, "env": {**os.environ, **more}}

    def in_rust(self):
        package = TOP / "rust" / "css-companion"
        for what, words in [("the Rust package's tests", ["test"]), ("its example", ["run", "--example", "quiz"])]:
            ran = self.cargo(words, package)
            self.run(what, ran["args"], cwd=ran["cwd"], env=ran["env"])
        made = self.room / "target" / package.name / "debug" / "deps"
        tests = max(made.glob("calls-*[0-9a-f]"), key=os.path.getmtime)
        self.run("its tests under valgrind", [*self.valgrind, tests, "--test-threads", "1"])

    def as_the_page_says_in_rust(self):
        """The page's loop in Rust compiles, and ends where nobody is there."""
        place = self.room / "loop_in_rust"
        (place / "src").mkdir(parents=True)
        package = f'[package]\nname = "loop_in_rust"\nversion = "0.1.0"\nedition = "2021"\n\n[dependencies]\n'
        (place / "Cargo.toml").write_text(package + f'css-companion = {{ path = "{TOP}/rust/css-companion" }}\n')
        blocks = [(TESTS / "yours.rs").read_text(), *blocks_of(PAGE, "rust")]
        (place / "src" / "main.rs").write_text("\n".join(blocks))
        ran = self.cargo(["run"], place)
        self.run("the page's loop in Rust compiles", ran["args"], cwd=ran["cwd"], env=ran["env"])

    def with_television(self, css, port, what, command):
        """Runs a program that follows a television on loopback. Its words are of a function of the television's URL."""
        television = Program(css, port) if css else Television(port)
        self.run(what, command(f"ws://127.0.0.1:{port}/cii"))
        television.end()

    def application_in_c(self, css):
        follow = self.built([EXAMPLES / "follow" / "follow.c", EXAMPLES / "follow" / "session.c"])
        self.with_television(css, self.port, f"{REPORTS} reports, in C",
                             lambda url: [*self.valgrind, follow, url, *WORDS])

    def application_in_rust(self, css):
        ran = self.cargo(["build", "--release"], EXAMPLES / "player")
        subprocess.run(ran["args"], cwd=ran["cwd"], env=ran["env"], check=True)
        player = self.room / "target" / "player" / "release" / "player"
        sound = self.room / "tones.wav"
        self.with_television(css, self.port + 2, f"{REPORTS} seconds of tones, in Rust",
                             lambda url: [player, url, sound, *WORDS])

    def all(self, css):
        """Makes all of these side by side."""
        parts = [(self.in_c,), (self.as_the_page_says,), (self.packaged,), (self.shared,), (self.at_random,)]
        parts += [(self.application_in_c, css), (self.on_arm, css)]
        if self.has("cargo", "the Rust package and its application"):
            parts += [(self.in_rust,), (self.as_the_page_says_in_rust,), (self.application_in_rust, css)]
        threads = [threading.Thread(target=self.guarded, args=part) for part in parts]
        for thread in threads:
            thread.start()
        for thread in threads:
            thread.join()

    def guarded(self, part, *words):
        try:
            part(*words)
        except (OSError, subprocess.SubprocessError, ValueError) as error:
            self.check(f"{part.__name__} goes through", False, error)


def main(words):
    with tempfile.TemporaryDirectory() as room:
        library, over = Path(room) / "library", words[:1] if words[:1] == ["--over-gate"] else []
        words = words[len(over):]
        if words[:1] == ["--into"]:
            library, words = Path(words[1]).resolve(), words[2:]
        if not shutil.which("gcc"):
            print("skipped the library: there is no gcc")
            return 0
        subprocess.run([TOP / "tools" / "library.py", *over, library], check=True)
        suite = Suite(library, Path(room), over)
        suite.all(words or ([os.environ["CSS"]] if os.environ.get("CSS") else []))
        return suite.check.end()


if __name__ == "__main__":
    sys.exit(main(sys.argv[1:]))
