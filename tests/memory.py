#!/usr/bin/env python3
"""Counts what memory the built program takes, and what it has left, where no proof says it.

    tests/memory.py [PROGRAM]         the program that ./css builds, or $CSS, where none is given

A relay exchanges requests and answers with its television, which takes no memory, and reads texts, which leave none.
It ends where an allocation is refused, and has nothing left. A survey keeps no more than a replay of its schedule does,
so no output. A small library in front of the C library's allocator counts in a file that this script reads; it is built
by `cc`, or by $CC. Each check prints a line. The exit status is 1 where one failed.
"""
import json
import mmap
import os
import shutil
import struct
import subprocess
import sys
import tempfile
import time

from checks import Checks, css, ports
from live_edge import dial_soon, wait_for
from peer import PING, PONG, TEXT
from television import Set

COMPILER = os.environ.get("CC", "cc")
LIBRARY = r"""
#include <errno.h>
#include <fcntl.h>
#include <malloc.h>
#include <stdlib.h>
#include <sys/mman.h>
#include <unistd.h>

void *__libc_malloc(size_t size);
void *__libc_calloc(size_t count, size_t size);
void *__libc_realloc(void *old, size_t size);
void *__libc_memalign(size_t alignment, size_t size);
void __libc_free(void *old);

/* how often memory was asked for, the bytes that are taken, the most that were, and whether none is given any more */
static struct counts { long asked, taken, most, refuses; } first, *counts = &first;

__attribute__((constructor)) static void start(void) {
    int file = open(getenv("COUNTS"), O_RDWR);
    void *shared = mmap(0, sizeof first, PROT_READ | PROT_WRITE, MAP_SHARED, file, 0);
    if (shared == MAP_FAILED) _exit(99);
    *(struct counts *)shared = first;
    counts = shared;
    close(file);
}

static int is_refused(void) {
    counts->asked++;
    if (counts->refuses) errno = ENOMEM;
    return counts->refuses != 0;
}

static void *given(void *at) {
    counts->taken += malloc_usable_size(at);
    if (counts->taken > counts->most) counts->most = counts->taken;
    return at;
}

void free(void *old) {
    counts->taken -= malloc_usable_size(old);
    __libc_free(old);
}

void *malloc(size_t size) { return is_refused() ? 0 : given(__libc_malloc(size)); }
void *calloc(size_t count, size_t size) { return is_refused() ? 0 : given(__libc_calloc(count, size)); }
void *memalign(size_t alignment, size_t size) { return is_refused() ? 0 : given(__libc_memalign(alignment, size)); }
void *aligned_alloc(size_t alignment, size_t size) { return memalign(alignment, size); }

int posix_memalign(void **into, size_t alignment, size_t size) {
    *into = memalign(alignment, size);
    return *into ? 0 : ENOMEM;
}

void *realloc(void *old, size_t size) {
    size_t before = malloc_usable_size(old);
    void *at = is_refused() ? 0 : __libc_realloc(old, size);
    if (at) counts->taken -= before;
    return given(at);
}
"""
TEXTS, EXCHANGES = 10_000, 300
SLACK = 100_000  # Less than the smallest block a text. What a run takes once, and a text under way, is below it.
LONG = 600  # Only what hangs takes so many seconds.
check = Checks()


class Counted:
    """A run of the program whose memory is counted."""

    def __init__(self, room, name, words, **how):
        place = os.path.join(room, name)
        with open(place, "wb") as file:
            file.write(bytes(32))
        with open(place, "r+b") as file:
            self.shared = mmap.mmap(file.fileno(), 32)
        environment = {**os.environ, "LD_PRELOAD": os.path.join(room, "counts.so"), "COUNTS": place}
        self.child = subprocess.Popen([PROGRAM, *words], env=environment, **how)

    def counts(self):
        """How often memory was asked for, the bytes that are taken, and the most that were."""
        return struct.unpack("3q", self.shared[:24])

    def refuse(self):
        self.shared[24:32] = struct.pack("q", 1)


def build(room):
    source = os.path.join(room, "counts.c")
    with open(source, "w", encoding="ascii") as out:
        out.write(LIBRARY)
    made = os.path.join(room, "counts.so")
    subprocess.run([COMPILER, "-shared", "-fPIC", "-O1", source, "-o", made], check=True)


def settle(tv, session):
    """Waits until the relay has read all that its television said, and has told it."""
    tv.programme()
    wanted, told = tv.state()["contentId"], {}
    while told.get("contentId") != wanted:
        opcode, payload = session.hear(LONG)
        if opcode == PING:  # A slow program asks meanwhile whether its peer is there.
            session.say(payload, PONG)
        told = json.loads(payload) if opcode == TEXT else {}
    time.sleep(0.1)


def relayed(room):
    port = ports()
    tv = Set(port)
    words = ["relay", "--cii", f"ws://127.0.0.1:{port}/cii", "--port", str(port + 50), "--ask-every", "500000"]
    relay = Counted(room, "relay", [*words, "--seconds", "3600"], stderr=subprocess.PIPE)
    check("a relay exchanges", wait_for(lambda: len(tv.sent) > EXCHANGES and tv.peers["CII"]))
    exchanged(tv, relay)
    texts(tv, relay, dial_soon(port + 50, "/cii"))
    ended(tv, relay)
    tv.end()


def exchanged(tv, relay):
    before, asked = len(tv.sent), relay.counts()[0]
    made = wait_for(lambda: len(tv.sent) >= before + EXCHANGES)
    asked = relay.counts()[0] - asked
    check(f"{EXCHANGES} answers that land take no memory", made and asked == 0, f"{asked} allocations")


def texts(tv, relay, session):
    tv.say_many("CII", LONG, 0, 100)
    settle(tv, session)
    asked, taken, _ = relay.counts()
    tv.say_many("CII", LONG, 0, TEXTS)
    settle(tv, session)
    asked, taken = relay.counts()[0] - asked, relay.counts()[1] - taken
    check(f"{TEXTS} texts are read with memory", asked >= TEXTS, f"{asked} allocations")
    check("and leave none", taken < SLACK, f"{taken} bytes")


def ended(tv, relay):
    relay.refuse()
    tv.programme()  # A relay that a busy machine made dial again is told it then.
    told = relay.child.communicate()[1]
    check("without memory a relay ends", relay.child.returncode == 14 and told == b"css: memory\n", told.decode().strip())
    taken = relay.counts()[1]
    check("and has nothing left", taken == 0, f"{taken} bytes")


def surveyed(room):
    words = ["--seed", "1", "--lines", "200000"]
    schedule = subprocess.run([PROGRAM, "generate", *words], capture_output=True, check=True).stdout
    survey = Counted(room, "survey", ["survey", *words], stdout=subprocess.PIPE)
    replay = Counted(room, "replay", ["replay"], stdin=subprocess.PIPE, stdout=subprocess.PIPE)
    told, printed = survey.child.communicate()[0], replay.child.communicate(schedule)[0]
    most, enough = survey.counts()[2], replay.counts()[2]
    check("a survey and a replay of its schedule", told.startswith(b"lines 200000 ") and printed.count(b"\n") > 10_000)
    check("the survey keeps no output", most < enough + len(printed) // 2, f"at most {most} bytes, a replay {enough}")


def main():
    if not shutil.which(COMPILER):
        check.skip("what memory is taken", f"there is no {COMPILER}")
        return check.end()
    with tempfile.TemporaryDirectory() as room:
        build(room)
        relayed(room)
        surveyed(room)
    return check.end()


if __name__ == "__main__":
    PROGRAM = css(*sys.argv[1:2])
    sys.exit(main())
