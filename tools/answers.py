#!/usr/bin/env python3
"""Turns the lines of a watch, or a companion's record, into answers, of which `agree` tells what they say together.

    tools/answers.py [--visit N] < LINES | ./css agree --pairs
    tools/answers.py < RECORD | ./css agree --pairs

Each answer becomes a line `answer`, with an `at` behind it. They come in the order of the readings from which they
count: a follow-up counts from the landing of the response that promised it. What stands before the last sleep is left
out, since no answer counts after one. Of the lines of a watch only one visit is taken, the last one with answers or
that of --visit, since no answer counts in another visit. --local-error and --local-precision are those of the watch. A
record has its own, and each datagram that landed: those that answer one of the last 64 requests are taken. The status
is 1 where the input is neither.
"""
import argparse
import json
import struct
import sys

# version, type, precision, error, and the originate, receive and transmit values as seconds and nanoseconds
DATAGRAM = struct.Struct(">BBbxI6I")
SECOND = 10**9
# A precision in nanoseconds, rounded up, and its exponent: the greatest of those that mean it.
EXPONENTS = {-(-SECOND * 2**(40 + exponent) // 2**40): exponent for exponent in range(-40, 31)}


class Part:
    """The answers of a visit since its last sleep, with the reading from which each counts."""

    def __init__(self, visit=1):
        self.visit, self.promised, self.found = visit, {}, []

    def add(self, kind, times, landed, rest):
        """The three times of an answer, in nanoseconds, and what else is told of it: first precision and error."""
        if kind == 2:
            self.promised.setdefault(times[:2], landed)
        self.found.append((self.promised.get(times[:2], landed) if kind == 3 else landed, times, rest))

    def answers(self):
        return sorted(self.found, key=lambda answer: answer[0])


def fields(datagram):
    """What a datagram says, unless it is no answer."""
    if len(datagram) != DATAGRAM.size:
        return None
    version, kind, precision, error, *times = DATAGRAM.unpack(datagram)
    fits = version == 0 and 1 <= kind <= 3 and precision <= 30 and error <= 25_600_000
    return (kind, precision, error, times) if fits and max(times[3], times[5]) < SECOND else None


def of_record(lines):
    """The answers of a record since its last sleep."""
    asked, part = [], Part()
    for words in lines:
        if words[0] == "slept":
            asked, part = [], Part()
        elif words[0] == "ask":
            asked.append(divmod(int(words[1]), SECOND))
        elif words[0] == "land":
            said = fields(bytes.fromhex(words[2].strip("-")))
            if said and tuple(said[3][:2]) in asked[-64:]:
                kind, precision, error, times = said
                times = tuple(SECOND * times[at] + times[at + 1] for at in (0, 2, 4))
                part.add(kind, times, int(words[1]), (precision, error))
    return part


def add_line(part, said, *rest):
    """Takes a line `answer` of a watch. What else is kept of it stands behind its numbers. ValueError or KeyError where
    they aren't those of an answer."""
    times = int(said["originate"]), int(said["receive"]), int(said["transmit"])
    landed, exponent, error = int(said["landed"]), EXPONENTS[int(said["precision"])], int(said["error"])
    if not 0 <= min(*times, landed) <= max(*times, landed) < 2**32 * SECOND or not 0 <= error <= 25_600_000:
        raise ValueError("out of range")
    part.add(said["type"], times, landed, (exponent, error, *rest))


def of_watch(lines, visit=None):
    """The answers of a visit, or of the last one that has some, since its last sleep."""
    parts, part = [], Part(0)
    for said in lines:
        if said["event"] in ("visit", "slept"):
            part = Part(said.get("number", part.visit))
            parts.append(part)
        elif said["event"] == "answer":
            add_line(part, said)
    fit = [part for part in parts if (part.found if visit is None else part.visit == visit)]
    return fit[-1] if fit else Part()


def written(answers, local_error, local_precision):
    """The input of `agree`: answer k, counted from 1, stands in line 2k."""
    lines = [f"css-agree 1 {local_error} {local_precision}"]
    for counted, (t1, t2, t3), (precision, error, *_) in answers:
        lines.append(f"answer {t1} {t2} {t3} {counted} {precision} {error}\nat {counted}")
    return "\n".join(lines) + "\n"


def options_of(words):
    parser = argparse.ArgumentParser(description=__doc__, formatter_class=argparse.RawDescriptionHelpFormatter)
    parser.add_argument("--visit", type=int, metavar="N")
    parser.add_argument("--local-error", type=int, default=128_000, metavar="E")
    parser.add_argument("--local-precision", type=int, default=1000, metavar="NS")
    return parser.parse_args(words)


def main(words):
    options = options_of(words)
    text = sys.stdin.read()
    local = options.local_error, options.local_precision
    if text.startswith("{"):
        part = of_watch(map(json.loads, text.splitlines()), options.visit)
    else:
        header, *lines = (line.split(" ") for line in text.splitlines() or [""])
        if header[:2] != ["css-record", "1"] or len(header) != 6:
            sys.exit("tools/answers.py: this is neither a record nor the lines of a watch")
        part, local = of_record(lines), header[2:4]
    sys.stdout.write(written(part.answers(), *local))
    return 0


if __name__ == "__main__":
    sys.exit(main(sys.argv[1:]))
