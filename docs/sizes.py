#!/usr/bin/env python3
"""Tells what of the code is too large: a file in a src/ over 500 lines, a line over 120 columns, and a function whose
body has over 40 lines between its braces. A contract isn't counted: it is read beside the name, not with the body.

    docs/sizes.py          lists each of them; the status is 1 where there is one
    docs/sizes.py --most   tells the largest of each instead
"""
import re
import sys

sys.dont_write_bytecode = True
import sources

LIMITS = {"lines of a file": 500, "columns of a line": 120, "lines of a body": 40}


def bodies(lines):
    """The name of each function of a file, the number of its first line, and how many lines its body has."""
    named = None
    for number, line in enumerate(lines, 1):
        head = re.match(r"( *)(?:pub(?:\(crate\))? )?(?:const )?(?:extern \"C\" )?fn (\w+)", line)
        if head and not line.rstrip().endswith(";"):
            named = (head[1], head[2], number)
            start = None
        if named and start is None and (line == named[0] + "{" or line.endswith(" {")) and "ensures" not in line:
            start = number
        if named and start is not None and line == named[0] + "}":
            yield named[1], named[2], number - start - 1
            named = None


def sizes(path):
    """What each limit speaks of, where it stands, and how much there is."""
    lines = path.read_text().splitlines()
    place = path.relative_to(sources.TOP)
    yield "lines of a file", f"{place}", len(lines)
    for number, line in enumerate(lines, 1):
        yield "columns of a line", f"{place}:{number}", len(line)
    for name, number, count in bodies(lines):
        yield "lines of a body", f"{place}:{number} {name}", count


def main(words):
    found = [size for path in sorted(sources.TOP.glob("crates/*/src/**/*.rt")) for size in sizes(path)]
    if words == ["--most"]:
        for what in LIMITS:
            most = max((size for size in found if size[0] == what), key=lambda size: size[2])
            print(f"{most[2]} {what}: {most[1]}")
        return 0
    faults = [size for size in found if size[2] > LIMITS[size[0]]]
    for what, place, count in faults:
        print(f"{place}: {count} {what}")
    return 1 if faults else 0


if __name__ == "__main__":
    sys.exit(main(sys.argv[1:]))
