#!/usr/bin/env python3
"""Refuses each allocation of a replay in turn, one number a run, until a run meets no refusal.

    tests/refusals.py [SCHEDULE]         examples/evening.schedule, where none is given; by the program that ./css
                                         builds, or by $CSS

Each run with a refusal must end with the status of want of memory, its line on standard error, and a front part of the
output. A small library in front of the C library's allocator does the refusing; it is built by `cc`, or by $CC.
"""

import os
import shutil
import subprocess
import sys
import tempfile

from checks import TOP, css

COMPILER = os.environ.get("CC", "cc")
LIBRARY = r"""
#define _GNU_SOURCE
#include <dlfcn.h>
#include <errno.h>
#include <stdlib.h>
#include <unistd.h>

static unsigned long wanted, seen;

__attribute__((constructor)) static void start(void) {
    const char *number = getenv("REFUSED");
    wanted = number ? strtoul(number, 0, 10) : 0;
}

static int is_refused(void) {
    if (wanted == 0 || ++seen != wanted) return 0;
    if (write(3, "r", 1) != 1) _exit(99);
    errno = ENOMEM;
    return 1;
}

void *malloc(size_t size) {
    static void *(*next)(size_t);
    if (!next) next = dlsym(RTLD_NEXT, "malloc");
    return is_refused() ? 0 : next(size);
}

void *realloc(void *old, size_t size) {
    static void *(*next)(void *, size_t);
    if (!next) next = dlsym(RTLD_NEXT, "realloc");
    return is_refused() ? 0 : next(old, size);
}

void *aligned_alloc(size_t alignment, size_t size) {
    static void *(*next)(size_t, size_t);
    if (!next) next = dlsym(RTLD_NEXT, "aligned_alloc");
    return is_refused() ? 0 : next(alignment, size);
}

int posix_memalign(void **into, size_t alignment, size_t size) {
    static int (*next)(void **, size_t, size_t);
    if (!next) next = dlsym(RTLD_NEXT, "posix_memalign");
    return is_refused() ? ENOMEM : next(into, alignment, size);
}
"""


def build(folder):
    source, library = os.path.join(folder, "refuse.c"), os.path.join(folder, "refuse.so")
    with open(source, "w", encoding="ascii") as out:
        out.write(LIBRARY)
    subprocess.run([COMPILER, "-shared", "-fPIC", "-O1", source, "-o", library, "-ldl"], check=True)
    return library


def run(program, library, schedule, number):
    """Exit status, output, standard error, and whether an allocation was refused."""
    reads, writes = os.pipe()
    environment = {"LD_PRELOAD": library, "REFUSED": str(number)}

    def tell_at_3():
        os.dup2(writes, 3)

    ran = subprocess.run([program, "replay"], input=schedule, capture_output=True, env=environment, timeout=120,
                         preexec_fn=tell_at_3, pass_fds=(3, writes))
    os.close(writes)
    with os.fdopen(reads, "rb") as told:
        refused = told.read() == b"r"
    return ran.returncode, ran.stdout, ran.stderr, refused


def main():
    path = sys.argv[1] if len(sys.argv) > 1 else os.path.join(TOP, "examples", "evening.schedule")
    with open(path, "rb") as told:
        schedule = told.read()
    if not shutil.which(COMPILER):
        print(f"skipped the refusal of allocations: there is no {COMPILER}")
        return
    program = css()
    with tempfile.TemporaryDirectory() as folder:
        library = build(folder)
        status, whole, errors, _ = run(program, library, schedule, 0)
        if status != 0 or errors:
            sys.exit(f"{path}: status {status}, {errors}")
        number = 1
        while True:
            status, printed, errors, refused = run(program, library, schedule, number)
            if not refused:
                break
            if status != 14 or errors != b"css: memory\n" or not whole.startswith(printed):
                sys.exit(f"allocation {number}: status {status}, {errors}, {printed}")
            number += 1
        if status != 0 or printed != whole:
            sys.exit(f"without a refusal: status {status}, {errors}")
    if number == 1:
        sys.exit("no allocation was seen")
    print(f"{number - 1} allocations refused, one a run: each ends with memory and a front part of the output")


if __name__ == "__main__":
    main()
