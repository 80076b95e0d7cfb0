"""The programs of the other scripts here: `css` itself, and those that stand over copies of the crates and are no part
of this repository, which are built and timed here."""

import os
import resource
import shutil
import subprocess
import sys
import tempfile

HERE = os.path.dirname(os.path.dirname(os.path.abspath(__file__)))
sys.path.insert(0, os.path.join(HERE, "tests"))
from checks import css  # noqa: E402, F401 (the folder comes first, and the others have it from here)


def crates_below(names, lines):
    """The lines of crates.txt of these crates of the repository and of all those below them."""
    below = {line.split(":")[0]: line for line in lines if ":" in line and not line.startswith("#")}
    found, waiting = {}, list(names)
    while waiting:
        name = waiting.pop()
        if name in below and name not in found:
            found[name] = below[name]
            waiting += below[name].split(":")[1].split()
    return found


def build(folder, name, libraries, source, proofs=None):
    """Builds the program of this source in this folder, over these libraries, and gives its path. Its proof files are
    texts by their paths, if it has any."""
    with open(os.path.join(HERE, "crates.txt"), encoding="utf-8") as file:
        lines = crates_below(libraries, file.readlines())
    for crate in lines:
        shutil.copytree(os.path.join(HERE, "crates", crate), os.path.join(folder, "crates", crate))
    crate = os.path.join(folder, "crates", name)
    os.makedirs(os.path.join(crate, "src"))
    with open(os.path.join(folder, "crates.txt"), "w", encoding="utf-8") as file:
        file.writelines([*lines.values(), f"{name}: {' '.join(libraries)}\n"])
    with open(os.path.join(crate, "src", "main.rt"), "w", encoding="utf-8") as file:
        file.write(source)
    for path, text in (proofs or {}).items():
        os.makedirs(os.path.dirname(os.path.join(crate, "proofs", path)), exist_ok=True)
        with open(os.path.join(crate, "proofs", path), "w", encoding="utf-8") as file:
            file.write(text)
    subprocess.run(["git", "init", "-q"], cwd=folder, check=True)
    how = {"stdin": subprocess.DEVNULL, "capture_output": True, "text": True, "check": False}
    run = subprocess.run(["rt", "run"], cwd=crate, **how)
    program = os.path.join(crate, "out", name)
    if not os.path.exists(program):
        sys.exit(run.stdout + run.stderr)
    return program


def seconds(words, text=""):
    """Processor seconds of a program with these words and this standard input."""
    before = resource.getrusage(resource.RUSAGE_CHILDREN)
    subprocess.run(words, input=text.encode(), check=True)
    after = resource.getrusage(resource.RUSAGE_CHILDREN)
    return after.ru_utime + after.ru_stime - before.ru_utime - before.ru_stime


def measured(words, **streams):
    """The exit status of a program, its processor seconds, and the peak of its memory in megabytes. GNU time starts it:
    a child's peak counts what its parent held, and that is next to nothing there."""
    with tempfile.NamedTemporaryFile("r") as peak:
        child = subprocess.Popen(["/usr/bin/time", "-q", "-f", "%M", "-o", peak.name, *words], **streams)
        _, status, used = os.wait4(child.pid, 0)
        child.returncode = os.waitstatus_to_exitcode(status)
        return child.returncode, used.ru_utime + used.ru_stime, int(peak.read()) / 1024
