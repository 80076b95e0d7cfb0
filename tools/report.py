#!/usr/bin/env python3
"""Makes a report on a television out of the saved lines of a watch, as text or as one page.

    ./css watch --cii URL > set.lines
    tools/report.py set.lines                       the report as text, on standard output
    tools/report.py set.lines --html report.html    the same as one page with plots, which needs nothing else

Each sentence is `proved` or `counted`. What is proved follows from the lines by `css agree --pairs`, which this program
runs: as long as this machine's clock keeps --local-error and --local-precision, which have to be those of the watch.
What is counted was read off the lines, or worked out from them, by this program alone. The lines have no requests, so
how many there were goes by --ask-every, or by how far apart the answered ones are.
"""
import argparse
import gc
import os
import pathlib
import shutil
import subprocess
import sys

sys.dont_write_bytecode = True
import report_lines
import report_page
import report_words
from report_pairs import Local, contradictions

FOLDER, NAME = pathlib.Path(__file__).resolve().parent, pathlib.Path(sys.argv[0]).name


def program(named):
    """The words of the program: this one, or $CSS, or ./css of the checkout, or the installed one."""
    if named or os.environ.get("CSS"):
        return [named or os.environ["CSS"]]
    script, installed = FOLDER.parent / "css", FOLDER.parent.parent / "bin" / "css"
    return [str(next((place for place in (script, installed) if place.is_file()), shutil.which("css") or "css"))]


def version():
    """What `./css --version` says of the version and of the commit."""
    script = FOLDER.parent / "css"
    if not script.is_file():
        return "css of no known commit"
    done = subprocess.run([script, "--version"], stdin=subprocess.DEVNULL, capture_output=True, text=True, check=False)
    return ", ".join(done.stdout.splitlines()[:2])


def whole(low, high):
    def number(word):
        value = int(word)
        if not low <= value <= high:
            raise argparse.ArgumentTypeError(f"{word} isn't from {low} to {high}")
        return value
    return number


def options_of(words):
    parser = argparse.ArgumentParser(description=__doc__, formatter_class=argparse.RawDescriptionHelpFormatter)
    parser.add_argument("lines", metavar="LINES", help="the saved lines of a watch; - is standard input")
    parser.add_argument("--html", metavar="FILE", help="writes the page into this file, and no text")
    parser.add_argument("--all", action="store_true", help="tells each fault, and not the first ones of a kind alone")
    parser.add_argument("--local-error", type=whole(0, 2_560_000), default=128_000, help="as that of the watch")
    parser.add_argument("--local-precision", type=whole(0, 10**9), default=1000, help="as that of the watch")
    parser.add_argument("--ask-every", type=whole(1, 10**12), metavar="NS", help="as that of the watch")
    parser.add_argument("--css", metavar="PROGRAM", help="the program that proves: else $CSS, or ./css")
    return parser.parse_args(words)


def main(words):
    options = options_of(words)
    local = Local(options.local_error, options.local_precision)
    gc.disable()  # Nothing is in a circle, and to look for that takes a fifth of the time.
    try:
        with sys.stdin.buffer if options.lines == "-" else open(options.lines, "rb") as file:
            run = report_lines.read(file)
        found, left = contradictions(program(options.css), run, local)
    except OSError as fault:
        sys.exit(f"{NAME}: {fault}")
    head = report_words.head_of(version(), local)
    sections = report_words.sections(run, found, left, options, local)
    if options.html:
        page = report_page.page(head, sections, run, found)
        pathlib.Path(options.html).write_text(page, encoding="utf-8")
    else:
        sys.stdout.write(report_words.text(head, sections))
    return 0


if __name__ == "__main__":
    sys.exit(main(sys.argv[1:]))
