#!/usr/bin/env python3
"""Checks the pages: the sessions that they show, the contracts that they name, their tables and their links.

    docs/check.py          runs ./css, which proves and builds the program where it is old; where $CSS is set, ./css
                           runs that

A session is a block of README.md or docs/*.md in which a line begins with "$ ". The lines behind it are what the
command writes: those that begin with "css: " on standard error, and all others on standard output. A hint that comes
may be left out, since nothing is promised of it; one that is shown has to come. In a block that begins with "```text
live" numbers differ from run to run, so only the words are compared; a line that begins with "television$ " is a
command that runs beside those after it, to the end of the block.
A block that begins with "```rust FILE" is a part of this file. The status is 1 where a page shows something else than
what comes.
"""
import re
import shutil
import socket
import subprocess
import sys
import time

sys.dont_write_bytecode = True
import claims
import sources
import trusted

PAGES = [sources.TOP / "README.md", *sorted((sources.TOP / "docs").glob("*.md"))]


def blocks(text):
    """The blocks of a page: whether each is live, the number of its first line, and its lines."""
    block = None
    for number, line in enumerate(text.splitlines(), 1):
        if line.startswith("```"):
            if block:
                yield block
            block = None if block else (line == "```text live", number + 1, [])
        elif block:
            block[2].append(line)


def sessions(lines, first):
    """Each command of a block, with the number of its line and the lines that it is to write."""
    command = None
    for number, line in enumerate(lines, first):
        if line.startswith("$ "):
            if command:
                yield command
            command = (number, line[2:], [])
        elif command:
            command[2].append(line)
    if command:
        yield command


def run(command):
    """What a command writes on its two streams, as lines."""
    done = subprocess.run(["bash", "-c", command], cwd=sources.TOP, capture_output=True, text=True, check=False)
    return done.stdout.splitlines(), done.stderr.splitlines()


def build():
    """Builds the program where it is old, so that no session shows how a build goes on."""
    if subprocess.run(["./css"], cwd=sources.TOP, capture_output=True, check=False).returncode == 70:
        sys.exit("docs/check.py: ./css isn't built")


def without_numbers(lines):
    return [re.sub(r"\d+", "#", line) for line in lines]


def television(lines):
    """The command that is to run beside the others of a block. It has listened for a second by now, on its port or that
    of its kind."""
    for line in lines:
        if line.startswith("television$ "):
            command = line.removeprefix("television$ ")
            started = subprocess.Popen(["bash", "-c", f"exec {command}"], cwd=sources.TOP, stdout=subprocess.DEVNULL)
            port = re.search(r"--port (\d+)", command)
            wait_for(int(port[1]) if port else 6680 if "wrong_tv" in command else 6677)
            time.sleep(1)
            return started
    return None


def wait_for(port):
    """Waits until somebody listens on a port of this machine, or it is too late."""
    end = time.monotonic() + 60
    while time.monotonic() < end:
        try:
            socket.create_connection(("127.0.0.1", port)).close()
            return
        except OSError:
            time.sleep(0.05)


def session_faults(page):
    """A live block is tried again where it shows something else: the program does the same again, a busy machine
    doesn't."""
    for live, first, lines in blocks(page.read_text()):
        for _ in range(3 if live else 1):
            faults = list(block_faults(page, live, first, lines))
            if not faults:
                break
        yield from faults


def block_faults(page, live, first, lines):
    beside = television(lines) if live else None
    seen = without_numbers if live else list
    for number, command, shown in sessions(lines, first):
        if ".mjs" in command and not command.startswith("sed ") and not shutil.which("node"):
            print(f"skipped {page.name}, line {number}: there is no node")
            continue
        out, errors = run(command)
        told = [line for line in shown if line.startswith("css: ")]
        errors = [line for line in errors if line in told or not line.startswith("css: hint: ")]
        if seen(out) != seen(line for line in shown if line not in told) or errors != told:
            yield f"line {number}: $ {command}\n" + "\n".join(out + errors)
    if beside:
        beside.terminate()
        beside.wait()


def anchors(page):
    """The names by which other pages link to the headings of a page."""
    heads = re.findall(r"^#+ (.*)", page.read_text(), re.M)
    return {re.sub(r"[^\w\- ]", "", head.lower()).replace(" ", "-") for head in heads}


def link_faults(page):
    for link in re.findall(r"\]\(([^)]+)\)", page.read_text()):
        file, _, anchor = link.partition("#")
        target = page.parent / file if file else page
        if "://" not in link and not target.exists():
            yield f"no file {link}"
        elif "://" not in link and anchor and anchor not in anchors(target):
            yield f"no heading {link}"


def quote_faults(page):
    for file, lines in re.findall(r"^```rust (\S+)\n(.*?)^```$", page.read_text(), re.M | re.S):
        if lines not in (sources.TOP / file).read_text():
            yield f"{file} hasn't these lines:\n{lines}"


def main(words):
    if words:
        print(__doc__)
        return 2
    bad = claims.main() + trusted.main(["--check"])
    build()
    for page in PAGES:
        for fault in [*link_faults(page), *quote_faults(page), *session_faults(page)]:
            print(f"{page.relative_to(sources.TOP)}, {fault}")
            bad += 1
    return 1 if bad else 0


if __name__ == "__main__":
    sys.exit(main(sys.argv[1:]))
