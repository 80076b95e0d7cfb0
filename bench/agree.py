#!/usr/bin/env python3
"""How much narrower the agreement of all answers is than the span of the narrowest one.

Draws exchanges of a television and a companion whose clocks are up to 50 ppm off, over a network whose delays differ by
the way and by the exchange. `css agree` tells the agreement of 2, 10 and 100 answers; each must contain the wall clock
and be the one that this script computes. Prints the median of the ratio of the widths. Then the same of a watch that
asks once a second, over ten kinds of networks. Then answers with as many declared errors as lines, to see that the time
grows with the number of errors and not with its square.

    bench/agree.py [PROGRAM]       the program that ./css builds, where none is given
"""

import random
import resource
import statistics
import subprocess
import sys

from programs import css
from second import F, precision_ns, span

ERROR = 12_800
OWN = (ERROR, 1_000)
EXPONENT = -20
# A watch's own clock where no words are given: 500 ppm. And one of 50 ppm.
WATCHES = {"500 ppm": (128_000, 1_000), "50 ppm": (12_800, 1_000)}
MILLISECOND = 1_000_000


def about(least, more):
    """A delay of at least so many milliseconds, and of so many more in the mean."""
    return lambda draw: int((least + draw.expovariate(1 / more)) * MILLISECOND)


def sometimes(often, seldom):
    """One delay in ten is of another kind."""
    return lambda draw: (seldom if draw.random() < 0.1 else often)(draw)


def up_to(most):
    """A delay of up to so many milliseconds."""
    return lambda draw: draw.randrange(most * MILLISECOND)


QUICK = about(1, 0.5)
# The delay of a request, that of a response, and which part of the exchanges is lost.
NETWORKS = {
    "a cable": (about(0.1, 0.02), about(0.1, 0.02), 0),
    "a quiet wireless network": (QUICK, QUICK, 0),
    "the same, and half of all is lost": (QUICK, QUICK, 0.5),
    "a busy wireless network": (about(2, 8), about(2, 8), 0),
    "a phone that sleeps between beacons": (QUICK, up_to(100), 0),
    "a slow way to the television": (about(20, 3), about(3, 1), 0),
    "a slow way back": (about(3, 1), about(20, 3), 0),
    "one datagram in ten is 200 ms late": (sometimes(QUICK, about(200, 20)), sometimes(QUICK, about(200, 20)), 0),
    "a radio of telephones": (about(40, 30), about(40, 30), 0),
    "a far host": (about(30, 2), about(30, 2), 0.05),
}


def agree(program, text):
    """What the program prints, and its processor seconds."""
    before = resource.getrusage(resource.RUSAGE_CHILDREN)
    run = subprocess.run([program, "agree"], input=text.encode(), capture_output=True, check=False)
    after = resource.getrusage(resource.RUSAGE_CHILDREN)
    if run.returncode != 0:
        sys.exit(f"agree ended with {run.returncode}: {run.stderr.decode()}")
    spent = after.ru_utime + after.ru_stime - before.ru_utime - before.ru_stime
    return run.stdout.decode().splitlines(), spent


def exchanges(draw, count):
    """True answers of one pair of clocks, and at the end a reading of the companion with the wall clock at it."""
    rates = [1 + draw.uniform(-50, 50) * 1e-6 for _ in range(2)]
    starts = [draw.randrange(10**12), draw.randrange(10**12)]

    def at(moment, end):
        return starts[end] + int(moment * rates[end])

    moment, answers = 0, []
    for _ in range(count):
        there, back = (200_000 + int(draw.expovariate(1 / 3_000_000)) for _ in range(2))
        busy = draw.randrange(50_000)
        t1, t2 = at(moment, 0), at(moment + there, 1)
        t3, t4 = at(moment + there + busy, 1), at(moment + there + busy + back, 0)
        answers.append((t1, t2, t3, t4))
        moment += there + busy + back + draw.randrange(1_000_000_000)
    return answers, at(moment, 0), at(moment, 1)


def ratio(program, draw, count):
    """The width of the agreement of so many answers, divided by that of the narrowest of them."""
    answers, reading, wall = exchanges(draw, count)
    lines = [f"css-agree 1 {OWN[0]} {OWN[1]}"]
    lines += [f"answer {t1} {t2} {t3} {t4} {EXPONENT} {ERROR}" for t1, t2, t3, t4 in answers]
    printed, _ = agree(program, "\n".join([*lines, f"at {reading}"]) + "\n")
    spans = [span((*times, precision_ns(EXPONENT), ERROR), OWN, reading) for times in answers]
    low, high = max(low for _, low, _ in spans), min(high for _, _, high in spans)
    if printed != [f"{count + 2} agree {low} {high}"]:
        sys.exit(f"{printed} is not {low} to {high}")
    if not low <= wall <= high:
        sys.exit(f"{low} to {high} is without {wall}")
    _, narrow_low, narrow_high = min(spans)
    return (high - low) / (narrow_high - narrow_low)


def watched(draw, network, own):
    """The widths of `wall` and of `agreed` in a watch's reports, once a second from the tenth to the sixtieth."""
    there_of, back_of, lost = network
    fast = [1 + draw.uniform(-50, 50) * 1e-6 for _ in range(2)]
    answers, widths = [], []
    for second in range(60):
        moment, there, back = second * 1_000 * MILLISECOND, there_of(draw), back_of(draw)
        landing = moment + there + 50_000 + back
        if draw.random() >= lost:
            there += moment
            times = moment * fast[0], there * fast[1], (there + 50_000) * fast[1], landing * fast[0]
            answers.append(tuple(10**12 + int(it) for it in times))
        if second < 10 or not answers:
            continue
        moment += 900 * MILLISECOND
        reading, wall = (10**12 + int(moment * it) for it in fast)
        spans = [span((*it, precision_ns(EXPONENT), ERROR), own, reading) for it in answers if it[3] < reading]
        low, high = max(low for _, low, _ in spans), min(high for _, _, high in spans)
        if not low <= wall <= high:
            sys.exit(f"{low} to {high} is without {wall}")
        _, narrow_low, narrow_high = min(spans)
        widths.append((narrow_high - narrow_low, high - low))
    return widths


def networks(draw):
    for name, network in NETWORKS.items():
        for error, own in WATCHES.items():
            widths = [each for _ in range(20) for each in watched(draw, network, own)]
            wall, agreed = (statistics.median(each) / MILLISECOND for each in zip(*widths))
            part = statistics.median(agreed / wall for wall, agreed in widths)
            print(f"{name}, {error}: wall {wall:.2f} ms, agreed {agreed:.2f} ms, {part:.2f} of it")


def errors(program, count):
    """Processor seconds of so many answers, each with a declared error of its own."""
    lines = [f"css-agree 1 {OWN[0]} {OWN[1]}"]
    for number in range(count):
        sent = 1_000_000 * number
        lines.append(f"answer {sent} {sent + 200_000} {sent + 250_000} {sent + 450_000} {EXPONENT} {number}")
    _, spent = agree(program, "\n".join([*lines, f"at {1_000_000 * count}"]) + "\n")
    return spent


def main():
    program = css(*sys.argv[1:2])
    draw = random.Random(1)
    for count in (2, 10, 100):
        ratios = [ratio(program, draw, count) for _ in range(200)]
        print(f"{count} answers: the agreement has {statistics.median(ratios):.3f} of the narrowest one's width")
    networks(draw)
    for count in (1_000, 2_000, 4_000):
        print(f"{count} answers of {count} errors: {errors(program, count):.3f} s")


if __name__ == "__main__":
    main()
