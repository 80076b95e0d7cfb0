#!/usr/bin/env python3
"""Puts the proved program and what belongs to it below a folder, or makes Debian packages of it, of the library and of
what goes by these in other languages.

    tools/package.py --install PREFIX      below PREFIX, or below $DESTDIR/PREFIX where DESTDIR is set
    tools/package.py --uninstall PREFIX    takes away what --install put there, and the folders that it made
    tools/package.py --deb DIR             puts css, libcss-companion1, libcss-companion-dev, python3-css-companion and
                                           node-css-lines into DIR

    --program FILE     is the program, in the place of the one that ./css builds
    --library FOLDER   has the library, as tools/library.py made it; else it is made now

The program is bin/css. Its manual page, what bash offers behind its words, and those of COMMANDS that there are go with
it.
"""
import argparse
import ast
import gzip
import hashlib
import os
import re
import shutil
import subprocess
import sys
import tempfile
from pathlib import Path

sys.dont_write_bytecode = True
import build
import library

TOP, TOOLS = build.TOP, build.TOP / "tools"
# Each script that is installed, and the name of its command.
COMMANDS = {"page.py": "css-page", "find.py": "css-find", "announce.py": "css-announce",
            "report.py": "css-report"}
SHARE = Path("share/css")
# The files and folders that an install made, one a line; the folders end with a slash.
RECORD = SHARE / "installed"
# What was there before installs were recorded.
EARLIER = ["bin/css", "share/man/man1/css.1"]

WRAPPER = """#!/bin/sh
exec python3 "$(dirname -- "$(readlink -f -- "$0")")/../share/css/{script}" "$@"
"""
COPYRIGHT = """{package} is made of the sources of css, by their authors:
{maintainer}

Copyright 2026 the authors of css. The sources name no license.
"""
CHANGES = """{package} ({version}) unstable; urgency=medium

  * Made of the sources by their own script.

 -- {maintainer}  Tue, 01 Dec 2026 00:00:00 +0000
"""
ABOUT_PROGRAM = """companion screen synchronisation of DVB: television, companion and replay
 It speaks the protocols of ETSI TS 103 286-2 for the wall clock, content
 identification and timelines. A companion reports where the television stands
 on a timeline, as an interval of ticks that is proved to contain it."""
ABOUT_SHARED = """follow a television of ETSI TS 103 286-2 from an application
 The companion of css as a shared object. It has no sockets and no clock of its
 own: the application hands it what comes."""
ABOUT_LIBRARY = """follow a television of ETSI TS 103 286-2: files for development
 The header of the companion of css, what pkg-config tells of it, its archive,
 and the name by which the shared object is linked."""
# The package of the shared object.
SHARED = "libcss-companion1"
# Packages of what needs no build: where it is, where it goes, what it is, and what goes with it.
PLAIN = {
    "python3-css-companion": ("python/css_companion", "usr/lib/python3/dist-packages/css_companion", """\
follow a television of ETSI TS 103 286-2 from Python
 The calls of the library, and an asynchronous iterator of positions.""", {
        "Section": "python", "Depends": f"python3 (>= 3.10), {SHARED}", "Recommends": "python3-websockets"}),
    "node-css-lines": ("javascript/css-lines", "usr/share/nodejs/css-lines", """\
positions on a television's timeline, by the lines of css watch
 A module for Node and browsers that depends on nothing.""", {"Section": "javascript", "Suggests": "nodejs, css"}),
}


def version():
    """The version, as the manual page has it."""
    return re.search(r'^\.TH CSS 1 \S+ "css (\S+)"', (TOP / "docs" / "css.1").read_text(), re.M)[1]


def scripts():
    """The scripts that are installed, those that they import, and the page with its module."""
    found = [name for name in COMMANDS if (TOOLS / name).is_file()]
    for name in found:
        for node in ast.walk(ast.parse((TOOLS / name).read_text())):
            modules = [node.module] if isinstance(node, ast.ImportFrom) else []
            modules += [each.name for each in node.names] if isinstance(node, ast.Import) else []
            found += [f"{it}.py" for it in modules if (TOOLS / f"{it}.py").is_file() and f"{it}.py" not in found]
    page = [*sorted(TOOLS.glob("*.html")), TOP / "javascript" / "css-lines" / "css-lines.js"]
    return [TOOLS / name for name in found] + page


def contents(program):
    """Each file below the prefix: its place, what it holds, and its mode."""
    yield Path("bin/css"), program.read_bytes(), 0o755
    yield Path("share/man/man1/css.1"), (TOP / "docs" / "css.1").read_bytes(), 0o644
    yield Path("share/bash-completion/completions/css"), (TOP / "docs" / "css.bash").read_bytes(), 0o644
    for path in scripts():
        text = re.sub(rb"\A#!/usr/bin/env python3\n", b"#!/usr/bin/python3\n", path.read_bytes())
        yield SHARE / path.name, text, 0o755 if text.startswith(b"#!") else 0o644
        if path.name in COMMANDS:
            yield Path("bin") / COMMANDS[path.name], WRAPPER.format(script=path.name).encode(), 0o755


def put(path, held, mode):
    """Puts a file in the place of another, by rename. The folders that had to be made, outermost first."""
    made = [folder for folder in path.parents if not folder.exists()][::-1]
    path.parent.mkdir(parents=True, exist_ok=True)
    new = path.with_name(path.name + ".new")
    new.write_bytes(held)
    new.chmod(mode)
    new.replace(path)
    return made


def recorded(prefix):
    """What earlier installs put below a prefix."""
    record = prefix / RECORD
    return record.read_text().splitlines() if record.is_file() else EARLIER


def install(prefix, program):
    places = dict.fromkeys(recorded(prefix))
    for place, held, mode in [*contents(program), (RECORD, b"", 0o644)]:
        folders = put(prefix / place, held, mode)
        places.update(dict.fromkeys(os.path.relpath(folder, prefix) + "/" for folder in folders))
        places[str(place)] = None
    put(prefix / RECORD, "".join(f"{place}\n" for place in places).encode(), 0o644)
    print(f"css: installed as {prefix / 'bin' / 'css'}", file=sys.stderr)


def uninstall(prefix):
    places = recorded(prefix)
    for place in places:
        if not place.endswith("/"):
            (prefix / place).unlink(missing_ok=True)
    folders = [prefix / place for place in places if place.endswith("/")]
    for folder in sorted((Path(os.path.normpath(it)) for it in folders), key=lambda it: -len(it.parts)):
        # What somebody else put there stays.
        if folder.is_dir() and not os.listdir(folder):
            folder.rmdir()


def libc(files):
    """The package of the C library, in the least version that these files ask for."""
    named = {found for file in files for found in re.findall(rb"GLIBC_(\d+(?:\.\d+)+)", file.read_bytes())}
    least = max((tuple(map(int, it.split(b"."))) for it in named), default=(2, 0))
    return f"libc6 (>= {'.'.join(map(str, least))})"


def maintainer():
    """Who makes the packages, as Debian's tools are told it, or as the repository's commits are."""
    name, mail = os.environ.get("DEBFULLNAME"), os.environ.get("DEBEMAIL")
    if name and mail:
        return f"{name} <{mail}>"
    last = subprocess.run(["git", "log", "-1", "--format=%an <%ae>"], cwd=TOP, capture_output=True, text=True,
                          check=False)
    return last.stdout.strip() or "css <css@localhost.localdomain>"


def told(words, **more):
    return subprocess.run(words, capture_output=True, text=True, check=True, **more).stdout.strip()


def pack(folder, tree, package, about, **fields):
    """Makes a package of a tree of files."""
    words = {"package": package, "version": version(), "maintainer": maintainer()}
    documents = tree / "usr/share/doc" / package
    put(documents / "copyright", COPYRIGHT.format(**words).encode(), 0o644)
    put(documents / "changelog.gz", gzip.compress(CHANGES.format(**words).encode(), mtime=0), 0o644)
    folder.mkdir(parents=True, exist_ok=True)
    files = sorted(path for path in (tree / "usr").rglob("*") if path.is_file() and not path.is_symlink())
    architecture = fields.setdefault("Architecture", told(["dpkg", "--print-architecture"]))
    control = {"Package": package, "Version": version(), "Maintainer": maintainer(),
               "Installed-Size": str(sum(path.stat().st_size for path in files) // 1024 + 1), "Priority": "optional",
               **fields, "Description": about}
    text = "".join(f"{name}: {value}\n" for name, value in control.items())
    sums = "".join(f"{hashlib.md5(path.read_bytes()).hexdigest()}  {path.relative_to(tree)}\n" for path in files)
    put(tree / "DEBIAN/control", text.encode(), 0o644)
    put(tree / "DEBIAN/md5sums", sums.encode(), 0o644)
    for path in tree.rglob("*"):
        if path.is_dir():
            path.chmod(0o755)
    target = folder / f"{package}_{version()}_{architecture}.deb"
    told(["dpkg-deb", "--root-owner-group", "-Zxz", "--build", tree, target])
    print(target)


def pack_program(folder, tree, program):
    for place, held, mode in contents(program):
        is_page = place.parent.name == "man1"
        target = tree / "usr" / (place.with_name(f"{place.name}.gz") if is_page else place)
        put(target, gzip.compress(held, mtime=0) if is_page else held, mode)
    for command in (tree / "usr/bin").glob("css-*"):
        (tree / "usr/share/man/man1" / f"{command.name}.1.gz").symlink_to("css.1.gz")
    # The scripts alone need Python.
    told(["strip", "--strip-unneeded", "--remove-section=.comment", "--remove-section=.note", tree / "usr/bin/css"])
    pack(folder, tree, "css", ABOUT_PROGRAM, Section="net", Depends=libc([program]), Recommends="python3")


def pack_library(folder, room, made):
    """Makes the packages of the library out of the folder that tools/library.py made: of the shared object, and of what
    an application is built with."""
    triplet = told(["dpkg-architecture", "-qDEB_HOST_MULTIARCH"]) if shutil.which("dpkg-architecture") else \
        told(["gcc", "-print-multiarch"])
    lib, run, dev, archive = Path("usr/lib") / triplet, room / "run", room / "dev", "libcss_companion.a"
    put(run / lib / library.SONAME, (made / "lib" / library.SONAME).read_bytes(), 0o644)
    put(run / "DEBIAN/shlibs", f"libcss_companion 1 {SHARED}\n".encode(), 0o644)
    put(run / "DEBIAN/triggers", b"activate-noawait ldconfig\n", 0o644)
    pack(folder, run, SHARED, ABOUT_SHARED, Section="libs", Depends="libc6, libgcc-s1")
    put(dev / lib / archive, (made / "lib" / archive).read_bytes(), 0o644)
    told(["strip", "--strip-debug", "--remove-section=.comment", "--remove-section=.note", dev / lib / archive])
    (dev / lib / "libcss_companion.so").symlink_to(library.SONAME)
    header = made / "include" / "css_companion.h"
    put(dev / "usr/include" / header.name, header.read_bytes(), 0o644)
    told_of = (made / "lib/pkgconfig/css_companion.pc").read_text()
    told_of = re.sub("^prefix=.*", "prefix=/usr", told_of, flags=re.M).replace("}/lib", f"}}/lib/{triplet}")
    put(dev / lib / "pkgconfig" / "css_companion.pc", told_of.encode(), 0o644)
    pack(folder, dev, "libcss-companion-dev", ABOUT_LIBRARY, Section="libdevel",
         Depends=f"libc6-dev, {SHARED} (= {version()})")


def pack_plain(folder, room):
    """Makes the packages of what needs no build."""
    for package, (source, place, about, fields) in PLAIN.items():
        for path in sorted(it for it in (TOP / source).iterdir() if it.is_file()):
            put(room / package / place / path.name, path.read_bytes(), 0o644)
        pack(folder, room / package, package, about, Architecture="all", **fields)


def make_packages(folder, program, made):
    with tempfile.TemporaryDirectory(prefix="css-deb-") as room:
        room = Path(room)
        if not made:
            made = room / "library"
            library.main([str(made)])
        pack_program(folder, room / "css", program)
        pack_library(folder, room, made)
        pack_plain(folder, room)


def main(words):
    parser = argparse.ArgumentParser(description=__doc__, formatter_class=argparse.RawDescriptionHelpFormatter)
    what = parser.add_mutually_exclusive_group(required=True)
    for name, folder in (("--install", "PREFIX"), ("--uninstall", "PREFIX"), ("--deb", "DIR")):
        what.add_argument(name, metavar=folder)
    parser.add_argument("--program", metavar="FILE", type=Path, default=build.program_at("css"))
    parser.add_argument("--library", metavar="FOLDER", type=Path)
    asked = parser.parse_args(words)
    try:
        if asked.deb:
            make_packages(Path(os.path.abspath(asked.deb)), asked.program, asked.library)
            return
        prefix = os.path.abspath(asked.install or asked.uninstall)
        prefix = Path(os.environ.get("DESTDIR", "") + prefix)
        install(prefix, asked.program) if asked.install else uninstall(prefix)
    except OSError as error:
        sys.exit(f"css: {error.filename}: {error.strerror}")
    except subprocess.CalledProcessError as error:
        sys.exit(f"css: {error.cmd[0]}: {error.stderr.strip()}")


if __name__ == "__main__":
    main(sys.argv[1:])
