#!/usr/bin/env python3
"""Installs the program by ./css where there is no kit, and makes Debian packages and installs them in a clean root.

    tests/package.py [PROGRAM]      the program that ./css builds, where none is given

The library of the other packages is a small one that gcc makes; tests/library.py links with the package of the real
one. A machine that lacks dpkg-deb, gcc, lintian or the right to change its root is told what was skipped.
"""
import os
import shutil
import subprocess
import sys
import tempfile
from pathlib import Path

sys.dont_write_bytecode = True
from checks import TOP, Checks, css, without_kit

sys.path.insert(0, str(TOP / "tools"))
import library

PACKAGES = ["css", "libcss-companion-dev", "libcss-companion1", "node-css-lines", "python3-css-companion"]
SCHEDULE = TOP / "examples" / "evening.schedule"
STANZA = """Package: {0}
Status: install ok installed
Architecture: {1}
Maintainer: nobody <nobody@localhost>
Version: {2}
Description: stands here already

"""
check = Checks()


def run(words, **more):
    return subprocess.run(words, capture_output=True, text=True, timeout=600, check=False, **more)


def below(folder):
    return sorted(str(path.relative_to(folder)) for path in folder.rglob("*"))


def replayed(words):
    with open(SCHEDULE, encoding="ascii") as schedule:
        ran = run([*words, "replay"], stdin=schedule)
    return ran.returncode, ran.stdout


def installs(room, program):
    """./css puts the program and its tools below a folder, and takes them away again."""
    top, env = without_kit(room, program)
    stage = room / "stage"
    for words, more, place in (([str(room / "new" / "prefix")], {}, room / "new"),
                               (["/usr/local"], {"DESTDIR": str(stage)}, stage)):
        name = f"DESTDIR={more.get('DESTDIR', '')} --install"
        ran = run([top / "css", "--install", *words], env={**env, **more})
        check(f"{name} needs no kit", ran.returncode == 0, ran.stderr.strip())
        prefix = Path(more.get("DESTDIR", "") + words[0])
        check(f"{name}: what was installed replays", replayed([prefix / "bin" / "css"]) == replayed([program]))
        check(f"{name}: the manual page", (prefix / "share/man/man1/css.1").is_file())
        for tool in prefix.glob("bin/css-*"):
            helped = run([tool, "--help"])
            check(f"{name}: {tool.name} --help", helped.returncode == 0 and helped.stdout, helped.stderr.strip()[-99:])
        run([top / "css", "--install", *words], env={**env, **more})
        run([top / "css", "--uninstall", *words], env={**env, **more})
        check(f"{name} twice, and --uninstall leaves nothing", not place.exists(), below(place))
    prefix = room / "shared"
    (prefix / "bin").mkdir(parents=True)
    (prefix / "share").mkdir()
    (prefix / "bin" / "other").write_text("")
    run([top / "css", "--install", prefix], env=env)
    run([top / "css", "--uninstall", prefix], env=env)
    check("what was there before stays", below(prefix) == ["bin", "bin/other", "share"], below(prefix))


def small_library(folder):
    """A library of one function, with the header of the real one."""
    for name in ("lib", "include"):
        (folder / name).mkdir(parents=True)
    source, made = folder / "small.c", folder / "small.o"
    source.write_text("int css_small(void) { return 42; }\n")
    subprocess.run(["gcc", "-g", "-fPIC", "-c", source, "-o", made], check=True)
    subprocess.run(["ar", "rcs", folder / "lib" / "libcss_companion.a", made], check=True)
    shared = folder / "lib" / library.SONAME
    subprocess.run(["gcc", "-shared", "-s", f"-Wl,-soname,{library.SONAME}", made, "-o", shared], check=True)
    shutil.copy(TOP / "crates" / library.NAME / "include" / "css_companion.h", folder / "include")
    library.package(folder)


def make(room, program):
    """All packages."""
    small_library(room / "library")
    words = ["--deb", room / "debs", "--program", program, "--library", room / "library"]
    ran = run([sys.executable, TOP / "tools" / "package.py", *words])
    made = sorted((room / "debs").glob("*.deb"))
    check("all packages are made", [it.name.partition("_")[0] for it in made] == PACKAGES, ran.stderr.strip())
    return made


def judged(debs):
    if not shutil.which("lintian"):
        check.skip("what lintian says of the packages", "there is no lintian")
        return
    ran = run(["lintian", "--fail-on", "error", *debs])
    check("lintian finds no error", ran.returncode == 0, ran.stdout.strip())


def clean_root(root, program):
    """A folder with the C library that the program needs and dpkg's lists, where Debian's libraries are told to be."""
    for path in {word for word in run(["ldd", program]).stdout.split() if word.startswith("/")}:
        target = root / path.lstrip("/")
        target.parent.mkdir(parents=True, exist_ok=True)
        shutil.copy(path, target)
    lists = root / "var/lib/dpkg"
    for name in ("info", "updates"):
        (lists / name).mkdir(parents=True)
    architecture = run(["dpkg", "--print-architecture"]).stdout.strip()
    version = run(["dpkg-query", "-W", "-f", "${Version}", "libc6"]).stdout or "9:0"
    here = {"libc6": version, "libc6-dev": version, "libgcc-s1": version, "python3": "9:0"}
    (lists / "status").write_text("".join(STANZA.format(it, architecture, here[it]) for it in here))
    for name in here:
        (lists / "info" / f"{name}.list").write_text("")


def usable(room, root):
    """The library of an installed package is linked by what its pkg-config file says, shared and as an archive."""
    program, source = room / "linked", room / "linked.c"
    source.write_text('#include "css_companion.h"\nint css_small(void);\nint main(void) { return css_small(); }\n')
    file = next(root.glob("usr/lib/**/css_companion.pc"))
    told = file.read_text().replace("/usr", f"{root}/usr")
    fields = dict(line.split(": ", 1) for line in told.splitlines() if ": " in line)
    prefix = next(line.partition("=")[2] for line in told.splitlines() if line.startswith("prefix="))
    flags = f"{fields['Cflags']} {source} -o {program} {fields['Libs']}".replace("${prefix}", prefix)
    ran = run(["gcc", *flags.split()])
    found = run([program], env={"LD_LIBRARY_PATH": str(file.parents[1])})
    check("a program is linked by the pkg-config file, with the shared object", ran.returncode == 0
          and found.returncode == 42 and library.SONAME in run([program], env={}).stderr, ran.stderr.strip())
    ran = run(["gcc", *flags.replace("-lcss_companion", "-l:libcss_companion.a").split()])
    check("and with the archive", ran.returncode == 0 and run([program]).returncode == 42, ran.stderr.strip())


def imported(root):
    """The module for JavaScript is imported where it is installed; tests/library.py has Python's, with its library."""
    if not shutil.which("node"):
        check.skip("the installed module for JavaScript", "there is no node")
        return
    told = f"import {{ Lines }} from '{root}/usr/share/nodejs/css-lines/css-lines.js'; new Lines()"
    ran = run(["node", "--input-type=module", "-e", told])
    check("the installed module for JavaScript", ran.returncode == 0, ran.stderr.strip()[-300:])


def in_clean_root(room, debs, program):
    """The packages are installed in a root that has nothing else, run there, and taken away."""
    own, root = [] if os.geteuid() == 0 else ["unshare", "-r"], room / "root"
    env = {**os.environ, "PATH": f"{os.environ['PATH']}:/usr/sbin:/sbin"}
    clean_root(root, program)
    if run([*own, "chroot", root, "/none"], env=env).returncode not in (126, 127):
        check.skip("the packages in a clean root", "this user may not change its root")
        return
    before, dpkg = below(root), [*own, "dpkg", f"--root={root}", f"--log={room / 'dpkg.log'}"]
    ran = run([*dpkg, "-i", *debs], env=env)
    check("dpkg installs all in a clean root", ran.returncode == 0, ran.stderr.strip())
    check("the program replays there", replayed([*own, "chroot", root, "/usr/bin/css"]) == replayed([program]))
    helped = run([*own, "chroot", root, "/usr/bin/css", "--help"])
    check("its --help is a hint there", helped.returncode == 1 and "css: hint: the commands" in helped.stderr)
    for tool in root.glob("usr/bin/css-*"):
        helped = run([tool, "--help"])
        check(f"{tool.name} --help", helped.returncode == 0 and helped.stdout, helped.stderr.strip()[-99:])
    usable(room, root)
    imported(root)
    ran = run([*dpkg, "--purge", *PACKAGES], env=env)
    left = [path for path in below(root) if path not in before and not path.startswith("var/")]
    check("dpkg takes all away, and nothing is left", ran.returncode == 0 and not left, (ran.stderr.strip(), left))


def main(words):
    program = Path(css(*words[:1])).resolve()
    with tempfile.TemporaryDirectory() as room:
        room = Path(room)
        installs(room, program)
        lacks = [name for name in ("dpkg-deb", "gcc", "ar", "strip") if not shutil.which(name)]
        if lacks:
            check.skip("Debian packages", f"there is no {' and no '.join(lacks)}")
            return check.end()
        debs = make(room, program)
        judged(debs)
        in_clean_root(room, debs, program)
    return check.end()


if __name__ == "__main__":
    sys.exit(main(sys.argv[1:]))
