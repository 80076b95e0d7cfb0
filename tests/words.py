#!/usr/bin/env python3
"""What is answered to each mistake at a command line: by the program, by ./css where the kit isn't, and by tools/*.py.

    tests/words.py [PROGRAM]      the program that ./css builds, where none is given

Nothing is promised of a hint's words. They are compared all the same, so that somebody looks at each that changes.
"""
import os
import pty
import re
import subprocess
import sys
import tempfile
from pathlib import Path

sys.dont_write_bytecode = True
from checks import TOP, Checks, css, ports, without_kit
from live_words import is_hint

sys.path.insert(0, str(TOP / "tools"))
import package

NAMES = "replay migrate agree audit companion watch tv pair relay generate survey"
ALL = f"the commands: {NAMES}; css COMMAND --help names its options, man css says it all"
VERSION = f"this is css {package.version()}; the commands: {NAMES}; man css"
EXAMPLE = "ws://192.168.1.20:6677/cii"
WATCH = "watch --cii ws://h/cii"
# The words, and what the hint says.
MISTAKES = [
    ("", "give a command: css --help lists them"),
    *((words, ALL) for words in ("--help", "-h", "help", "nonsense --help")),
    *((words, VERSION) for words in ("--version", "-V", "tv --version")),
    ("help tv", "tv: --port --turns --seconds --precision --error --host --follow --relative; man css"),
    ("tv -h", "tv: --port --turns --seconds --precision --error --host --follow --relative; man css"),
    ("tv --port 80 --help", "tv: --port --turns --seconds --precision --error --host --follow --relative; man css"),
    ("replay --help", "replay takes no options, and reads a schedule: css replay < FILE; man css"),
    ("agree -h", "agree: --pairs; man css"),
    ("agree --pair", "no such option: --pair; did you mean --pairs?"),
    ("reply", "no such command: reply; did you mean replay?"),
    ("comapnion", "no such command: comapnion; did you mean companion?"),
    ("television", "no such command: television; css --help lists them"),
    ("\u00e4" * 100, "no such command: " + "?" * 170),
    ("--nonsense", "a command stands before --nonsense: css --help lists them"),
    ("--port 80", "a command stands before --port: css --help lists them"),
    ("examples/evening.schedule", "a command stands before a file, as in: css replay < examples/evening.schedule"),
    (EXAMPLE, f"a command stands before an address, as in: css watch --cii {EXAMPLE}"),
    # a file, or an address, where an option is wanted
    ("replay a.schedule", "stray word: a.schedule; to read a schedule from a file write: css replay < a.schedule"),
    ("audit record", "stray word: record; to read a record from a file write: css audit < record"),
    ("tv a.script", "stray word: a.script; to read a script from a file write: css tv < a.script"),
    ("pair --relative a.script", "stray word: a.script; to read a script from a file write: css pair < a.script"),
    ("companion --cii ws://h/cii a.sheet",
     "stray word: a.sheet; to read a cue sheet from a file write: css companion < a.sheet"),
    ("replay -", "stray word: -; leave it out"),
    ("tv --", "stray word: --; leave it out"),
    ("watch ws://h/cii", "stray word: ws://h/cii; write --cii before an address"),
    ("generate 5", "stray word: 5; css generate --help names the options"),
    # options that there aren't
    ("replay --file a", "no such option: --file; replay takes none"),
    ("tv --prot 1", "no such option: --prot; did you mean --port?"),
    ("tv -port 6677", "no such option: -port; did you mean --port?"),
    ("tv -p 6677", "no such option: -p; did you mean --port?"),
    ("tv --nonsense 5", "no such option: --nonsense; css tv --help names those that there are"),
    ("watch -cii ws://h/cii", "no such option: -cii; did you mean --cii?"),
    ("watch -cii=ws://h/cii", "no such option: -cii; did you mean --cii?"),
    ("companion --select x", "no such option: --select; did you mean --selector?"),
    ("relay --relative --cii ws://h/cii", "no such option: --relative; css relay --help names those that there are"),
    # values
    ("tv --port", "--port has no value"),
    ("tv --port 1 --port 2", "--port is given twice"),
    ("tv --follow=yes", "--follow takes no value"),
    ("tv --precision -20", "--precision: a value that begins with - stands behind =, as --precision=-20"),
    ("tv --precision=-x", "--precision: -x isn't a whole number from -128 to 30"),
    ("tv --precision=31", "--precision: 31 isn't from -128 to 30"),
    (WATCH + " --stem -x", "--stem: a value that begins with - stands behind =, as --stem=-x"),
    (WATCH + " --report-every 0.1", "--report-every counts whole nanoseconds: for 0.1 write --report-every 100000000"),
    (WATCH + " --report-every=1.5", "--report-every counts whole nanoseconds: for 1.5 write --report-every 1500000000"),
    (WATCH + " --report-every 100ms",
     "--report-every counts whole nanoseconds: for 100ms write --report-every 100000000"),
    (WATCH + " --ask-every 1s", "--ask-every counts whole nanoseconds: for 1s write --ask-every 1000000000"),
    (WATCH + " --local-precision 0.5us",
     "--local-precision counts whole nanoseconds: for 0.5us write --local-precision 500"),
    (WATCH + " --report-every 0.0000000001",
     "--report-every: 0.0000000001 isn't a whole number of nanoseconds in its range"),
    (WATCH + " --report-every 0.0", "--report-every: 0.0 isn't a whole number of nanoseconds in its range"),
    (WATCH + " --report-every 10000s", "--report-every: 10000s isn't a whole number of nanoseconds in its range"),
    (WATCH + " --report-every 99999999999s",
     "--report-every: 99999999999s isn't a whole number of nanoseconds in its range"),
    (WATCH + " --report-every often", "--report-every: often isn't a whole number of nanoseconds in its range"),
    (WATCH + " --report-every 0", "--report-every: 0 isn't from 1 to 1000000000000"),
    (WATCH + " --report-every 05", "--report-every: 05 has zeros before its digits"),
    (WATCH + " --report-every +5", "--report-every: +5 has a sign"),
    ("companion --cii ws://h/cii --reports 0", "--reports: 0 isn't from 1 to 1000000"),
    ("companion --cii ws://h/cii --reports 0.5", "--reports: 0.5 isn't a whole number"),
    ("companion --cii ws://h/cii --earliest 1,1", "--earliest is without --latest"),
    ("tv --seconds 10s", "--seconds: 10s isn't a whole number from 1 to 31536000"),
    ("tv --seconds 0", "--seconds: 0 isn't from 1 to 31536000"),
    ("tv --turns x", "--turns: x isn't a whole number from 1 to 1000000"),
    ("tv --seconds 1 --turns 5", "--seconds and --turns exclude each other"),
    ("tv --port 80", "--port: 80 isn't from 1024 to 65534"),
    ("tv --port 70000", "--port: 70000 isn't from 1024 to 65534"),
    ("tv --host ::1", "--host: ::1 needs brackets around IPv6, as [::1]"),
    ("generate --seed 1", "--lines is missing"),
    # addresses
    ("watch", f"--cii is missing: give the television's address, as in --cii {EXAMPLE}"),
    ("watch --cii", "--cii has no value"),
    ("watch --cii 127.0.0.1:6677", "--cii: 127.0.0.1:6677 is no ws: address, as in ws://127.0.0.1:6677/cii"),
    ("watch --cii tv:6677/cii", "--cii: tv:6677/cii is no ws: address, as in ws://tv:6677/cii"),
    ("watch --cii [::1]:6677", "--cii: [::1]:6677 is no ws: address, as in ws://[::1]:6677/cii"),
    ("watch --cii 127.0.0.1", f"--cii: 127.0.0.1 is no ws: address, as in {EXAMPLE}"),
    ("watch --cii television", f"--cii: television is no ws: address, as in {EXAMPLE}"),
    ("watch --cii http://h:6677/cii", "--cii: http://h:6677/cii is no ws: address, as in ws://h:6677/cii"),
    ("watch --cii wss://h:6677/cii",
     "--cii: there is no encryption, so no wss: give a ws: address, as in ws://h:6677/cii"),
    ("watch --cii wss://h/cii", f"--cii: there is no encryption, so no wss: give a ws: address, as in {EXAMPLE}"),
    ("watch --cii ws://h:65536/cii", f"--cii: ws://h:65536/cii: a port is from 1 to 65535, as in {EXAMPLE}"),
    ("watch --cii h:70000", f"--cii: h:70000: a port is from 1 to 65535, as in {EXAMPLE}"),
    ("watch --cii ws://::1:6677/cii",
     "--cii: ws://::1:6677/cii needs brackets around IPv6, as ws://[::1]:6677/cii"),
]
PORT = ports()
# What each command reads.
READ = {"replay": "a schedule", "migrate": "a schedule of version 1", "agree": "answers", "audit": "a record",
        "companion --cii ws://127.0.0.1:9/cii --turns 1": "a cue sheet", f"tv --port {PORT} --turns 1": "a script",
        f"pair --port {PORT + 2} --turns 1": "a script"}
READS_NOTHING = ["companion --record --cii ws://127.0.0.1:9/cii --turns 1", "generate --seed 1 --lines 9",
                 "survey --seed 1 --lines 9", "replay now"]
check = Checks()


def run(words, **more):
    more = {"stdin": subprocess.DEVNULL, **more}
    return subprocess.run(words, capture_output=True, text=True, timeout=120, check=False, **more)


def hint_after(program, words):
    """The hint after `usage`. None where it isn't that, or no hint."""
    ran = run([program, *words])
    lines = ran.stderr.split("\n")
    right = ran.returncode == 1 and not ran.stdout and lines[0] == "css: usage" and lines[2:] == [""]
    return lines[1].removeprefix("css: hint: ") if right and is_hint(lines[1]) else None


def mistakes(program):
    for line, wanted in MISTAKES:
        told = hint_after(program, line.split())
        check(f"css {line}", told == wanted, told)


def options(program):
    """The options of each command are the same in its hint, in the manual page and behind a tab of bash, and the
    program knows them."""
    for name in NAMES.split():
        told = hint_after(program, [name, "--help"]) or ""
        listed = told.removesuffix("; man css").split()[1:] if told.startswith(f"{name}: ") else []
        page = run([TOP / "css", name, "--help"]).stdout
        in_page = re.findall(r"^  (--[a-z-]+)|, (--[a-z-]+)", page, re.M)
        check(f"{name}: the options of its hint are those of the manual page",
              sorted(listed) == sorted({it for pair in in_page for it in pair if it}), listed)
        offers = f'. docs/css.bash; COMP_WORDS=(css {name} ""); COMP_CWORD=2; _css; echo "${{COMPREPLY[@]}}"'
        offered = run(["bash", "-c", offers], cwd=TOP).stdout.split()
        check(f"{name}: bash offers them", sorted(offered) == sorted(listed), offered)
        twice = {it: hint_after(program, [name, it, it]) for it in listed}
        strange = {it: told for it, told in twice.items() if not told or told.startswith("no such option: ")}
        check(f"{name}: the program knows them", not strange, strange)
    offers = '. docs/css.bash; COMP_WORDS=(css ""); COMP_CWORD=1; _css; echo "${COMPREPLY[@]}"'
    check("bash offers each command", run(["bash", "-c", offers], cwd=TOP).stdout.split() == NAMES.split())


def at_terminal(program, words):
    """The first line on standard error of a run whose standard input is a terminal, where a person ends it at once."""
    master, terminal = pty.openpty()
    os.write(master, b"\x04")
    ran = run([program, *words], stdin=terminal)
    os.close(master)
    os.close(terminal)
    return ran.stderr.partition("\n")[0]


def terminals(program):
    for line, wanted in READ.items():
        name = line.split()[0]
        told = at_terminal(program, line.split())
        check(f"css {line}: at a terminal it says what it reads",
              told.startswith(f"css: {name} reads {wanted} from standard input until its end, Ctrl-D"), told)
        silent = run([program, *line.split()]).stderr
        check(f"css {line}: and nowhere else", " from standard input " not in silent, silent.strip())
    for line in READS_NOTHING:
        told = at_terminal(program, line.split())
        check(f"css {line}: it doesn't say so where it reads nothing", " from standard input " not in told, told)


def scripts(room):
    """./css where there is no kit, and no program is built."""
    top, env = without_kit(room)
    for words in (["--help"], ["-h"], ["tv", "-h"], ["--version"], ["-V"]):
        ran = run([top / "css", *words], env=env)
        answered = ran.returncode == 0 and ran.stdout and not ran.stderr
        check(f"./css {' '.join(words)} needs no kit", answered, ran.stderr)
    listed = run([top / "css", "-h"], env=env).stdout
    own = ("--try", "--prove", "--install", "--uninstall", "--library", "--deb")
    check("./css --help lists what the script itself takes", all(f"./css {it} " in listed for it in own))
    (room / "commands" / "dpkg-deb").symlink_to("/bin/true")
    for words in (["--try", "tv"], ["--prove"], ["--install", room / "p"], ["--library", room / "l"],
                  ["--deb", room / "d"], ["replay"], ["tv"]):
        ran = run([top / "css", *words], env=env)
        wanted = "css: to build the program the Rattle kit is needed: put its command rt on the path\n"
        check(f"./css {words[0]} without the kit", (ran.returncode, ran.stderr) == (70, wanted), ran.stderr.strip())
    (room / "commands" / "dpkg-deb").unlink()
    ran = run([top / "css", "--deb", room / "d"], env=env)
    check("./css --deb without dpkg-deb", (ran.returncode, ran.stderr)
          == (70, "css: to make Debian packages dpkg-deb is needed\n"), ran.stderr.strip())
    for word in ("--install", "--uninstall", "--library", "--deb"):
        ran = run([top / "css", word], env=env)
        check(f"./css {word} without a folder", ran.returncode == 1 and "needs the folder" in ran.stderr)


def tools():
    """Each script of tools/ that can be run answers --help."""
    for path in sorted((TOP / "tools").glob("*.py")):
        if os.access(path, os.X_OK):
            ran = run([path, "--help"])
            check(f"tools/{path.name} --help", ran.returncode == 0 and path.name in ran.stdout, ran.stderr.strip())


def main(words):
    program = Path(css(*words[:1])).resolve()
    mistakes(program)
    options(program)
    terminals(program)
    with tempfile.TemporaryDirectory() as room:
        scripts(Path(room))
    tools()
    return check.end()


if __name__ == "__main__":
    sys.exit(main(sys.argv[1:]))
