#!/usr/bin/env python3
"""Puts the library for companion applications into a folder: an archive, a shared object, their header, a pkg-config
file, and the packages for Rust and Python.

    tools/library.py [--target TARGET] DIR          proves css_companion_c and the crates below it, where they are old
    tools/library.py --over-gate [--target T] DIR   proves css_companion_c alone, over the libraries that `rt ci` left

TARGET is x86_64-unknown-linux-gnu, where nothing else is said, or aarch64-unknown-linux-gnu. What was proved is kept in
crates/css/out/libraries: while the sources are the same it isn't proved again for that target.

DIR/include/css_companion.h, DIR/lib/libcss_companion.a, DIR/lib/libcss_companion.so.1,
DIR/lib/pkgconfig/css_companion.pc, DIR/rust/css-companion, DIR/python/css_companion
"""
import argparse
import os
import re
import shutil
import struct
import subprocess
import sys
import tempfile
from pathlib import Path

from build import LIBRARIES, TOP, Prover, alone

NAME = "css_companion_c"
VERSION = "1.0"
SONAME = "libcss_companion.so.1"
HEADER = TOP / "crates" / NAME / "include" / "css_companion.h"
# Each function has sections of its own, which take a fifth of the archive: so they become one of a kind. Constants that
# a linker may merge stay by themselves.
ONE_EACH = """SECTIONS {
  .text : { *(.text .text.*) }
  .rodata.cst4 : { *(.rodata.cst4) }
  .rodata.cst8 : { *(.rodata.cst8) }
  .rodata.cst16 : { *(.rodata.cst16) }
  .rodata.cst32 : { *(.rodata.cst32) }
  .rodata : { *(.rodata .rodata.*) }
  .data.rel.ro : { *(.data.rel.ro .data.rel.ro.*) }
  /DISCARD/ : { *(.comment .llvm_addrsig) }
}
"""
# The calls and jumps of each machine, by its number in an object, and the bits that hold their distance.
JUMPS = {62: ({4}, 0xffffffff, 0), 183: ({282, 283}, 0x3ffffff, 2)}
# How ld.lld names each target.
TARGETS = {"x86_64-unknown-linux-gnu": "elf_x86_64", "aarch64-unknown-linux-gnu": "aarch64linux"}


class OverGate(Prover):
    """Proves a crate alone, over the libraries that `rt ci` proved and left in crates/*/out."""

    def __init__(self, room, *rest):
        super().__init__(room, *rest)
        self.libraries = self.room / "libraries"
        self.libraries.mkdir()
        for crate in self.crates - {self.top}:
            place = TOP / "crates" / crate / "out" / "rlib" / f"{crate}.rlib"
            if not place.is_dir():
                sys.exit(f"css: there is no {place.relative_to(TOP)}: run `rt ci` first")
            (self.libraries / place.name).symlink_to(place)

    def is_kept(self, crate):
        return crate != self.top


def proved(room, kind, target):
    """The archive of the proved code, and the folder of the kit."""
    made, words = Path(room) / f"lib{NAME}.a", ["src/lib.rt", "--crate-type=staticlib", f"--target={target}"]
    if kind is OverGate:
        # the tests build for each target: what is checked for one isn't checked again for the next
        words += ["--incremental", LIBRARIES / f"{NAME}.checked"]
    prover = kind(room, NAME, words, made)
    kept = LIBRARIES / f"{NAME}-{target}.a"
    of_kept = kept.with_suffix(".sum")
    if not (kept.is_file() and of_kept.is_file() and of_kept.read_text() == prover.sum(NAME)):
        below = "" if kind is OverGate else f" and the {len(prover.crates) - 1} crates below it"
        print(f"css: proving the library{below}", file=sys.stderr, flush=True)
        prover.prove()
        of_kept.unlink(missing_ok=True)
        LIBRARIES.mkdir(parents=True, exist_ok=True)
        shutil.copyfile(made, kept)
        of_kept.write_text(prover.sum(NAME))
    return kept, prover.kit


def settle(path):
    """Writes calls and jumps within the code's one section into it. So a linker has no relocations for them, which are
    a fifteenth of the archive."""
    file = bytearray(path.read_bytes())
    machine, table, count = (int.from_bytes(file[at:at + size], "little") for at, size in ((18, 2), (40, 8), (60, 2)))
    sections = [[*struct.unpack_from("<IIQQQQIIQQ", file, table + 64 * number)] for number in range(count)]
    code = next(number for number, section in enumerate(sections) if section[2] & 4)  # what is executed
    told = next(section for section in sections if section[1] == 4 and section[7] == code)
    (types, mask, shift), begun, kept = JUMPS[machine], sections[code][4], bytearray()
    for at in range(told[4], told[4] + told[5], 24):
        place, kind, symbol, addend = struct.unpack_from("<QIIq", file, at)
        _, binding, seen, home, value, _ = struct.unpack_from("<IBBHQQ", file, sections[told[6]][4] + 24 * symbol)
        if kind in types and home == code and (binding < 16 or seen == 2):  # local or hidden
            word = int.from_bytes(file[begun + place:begun + place + 4], "little")
            word = word & ~mask | (value + addend - place >> shift) & mask
            file[begun + place:begun + place + 4] = word.to_bytes(4, "little")
        else:
            kept += file[at:at + 24]
    gone = told[5] - len(kept)
    file[told[4]:told[4] + told[5]] = kept
    for number, section in enumerate(sections):
        section[4] -= gone if section[4] > told[4] else 0
        section[5] -= gone if section is told else 0
        struct.pack_into("<IIQQQQIIQQ", file, table - gone + 64 * number, *section)
    struct.pack_into("<Q", file, 40, table - gone)
    path.write_bytes(file)


class Linker:
    """The kit's own tools, for a target."""

    def __init__(self, room, kit, target):
        self.room, self.tools, self.target = Path(room), kit / "toolchain" / "bin", target

    def compiled(self, source):
        made = self.room / f"{source.stem}.o"
        words = ["-O2", "-fPIC", "-ffreestanding", "-Wall", "-Wextra", "-Werror", "-c", source, "-o", made]
        self.run("clang", f"--target={self.target}", *words)
        return made

    def linked(self, made, *words):
        self.run("ld.lld", "-m", TARGETS[self.target], "-o", made, *words)
        return made

    def run(self, tool, *words):
        subprocess.run([self.tools / tool, *words], check=True)

    def archive(self, code, made):
        """All of it is one object, in which the heap's functions are hidden."""
        script = self.room / "one_each"
        script.write_text(ONE_EACH)
        whole = self.linked(self.room / "css_companion.o", "-r", "-T", script, "--discard-all", "--whole-archive", code,
                            self.compiled(TOP / "tools" / "heap.c"))
        settle(whole)
        made.parent.mkdir(parents=True, exist_ok=True)
        made.unlink(missing_ok=True)
        self.run("llvm-ar", "rcsD", made, whole)
        return whole

    def shared(self, whole, made):
        """A shared object that exports the header's calls and nothing else. It names the C library and the compiler's;
        empty ones stand for these, so that no other tools are needed."""
        calls = re.findall(r"^(?!static)\w[\w ]*\**(css_\w+)\(", HEADER.read_text(), re.M)
        script = self.room / "exports"
        script.write_text(f"CSS_COMPANION_1 {{ global: {' '.join(f'{call};' for call in calls)} local: *; }};\n")
        empty = self.room / "empty.c"
        empty.write_text("")
        needs = [self.linked(self.room / name, "-shared", "-soname", name, self.compiled(empty))
                 for name in ("libc.so.6", "libgcc_s.so.1")]
        self.linked(made, "-shared", "-soname", SONAME, "--version-script", script, "--strip-all", "-z",
                    "relro", "-z", "now", "-z", "noexecstack", "--build-id=sha1", whole, *needs)
        made.chmod(0o755)


def package(folder):
    """What pkg-config tells of the library. It finds the folder by its own place, so the folder may be moved."""
    text = f"""prefix=${{pcfiledir}}/../..
Name: css_companion
Description: follow a television of ETSI TS 103 286-2 (DVB-CSS)
Version: {VERSION}
Cflags: -I${{prefix}}/include
Libs: -L${{prefix}}/lib -lcss_companion
"""
    target = folder / "lib" / "pkgconfig" / "css_companion.pc"
    target.parent.mkdir(parents=True, exist_ok=True)
    target.write_text(text)


def options_of(words):
    parser = argparse.ArgumentParser(prog="tools/library.py", description=__doc__,
                                     formatter_class=argparse.RawDescriptionHelpFormatter)
    parser.add_argument("folder", metavar="DIR", type=Path)
    parser.add_argument("--over-gate", action="store_true")
    parser.add_argument("--target", choices=sorted(TARGETS), default="x86_64-unknown-linux-gnu")
    return parser.parse_args(words)


def main(words):
    options = options_of(words)
    folder = Path(os.path.abspath(options.folder))
    with alone(), tempfile.TemporaryDirectory(prefix="css-room-") as room:
        code, kit = proved(room, OverGate if options.over_gate else Prover, options.target)
        linker = Linker(room, kit, options.target)
        whole = linker.archive(code, folder / "lib" / "libcss_companion.a")
        linker.shared(whole, folder / "lib" / SONAME)
    (folder / "include").mkdir(parents=True, exist_ok=True)
    shutil.copy(HEADER, folder / "include")
    package(folder)
    for place in (Path("rust") / "css-companion", Path("python")):
        skipped = shutil.ignore_patterns("target", "__pycache__", "*.egg-info", "build")
        shutil.copytree(TOP / place, folder / place, ignore=skipped, dirs_exist_ok=True)
    print(f"the library is in {folder}")
    return 0


if __name__ == "__main__":
    sys.exit(main(sys.argv[1:]))
