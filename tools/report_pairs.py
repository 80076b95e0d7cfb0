"""Which answers of a set contradict each other, what explains it, and how fast the set's clock ran. tools/report.py is
made of it. That two answers contradict each other is what `css agree --pairs` says; all else is worked out here."""
import collections
import re
import struct
import subprocess

from answers import DATAGRAM, SECOND, written

F = 256_000_000  # Errors are parts of it.
GREATEST = 25_600_000  # The greatest error that a set can declare, which is 100,000 ppm.
ROOM = 60_000_000  # So many bytes are handed to `agree` at once; it takes somewhat more.
AROUND = 30  # So many answers before a contradiction, and so many after it, say what explains it;
NEAR = 5  # or at least so many, and all from the older of both on, where that many say that nothing does.

# What the clock of the companion keeps, in 1/256 ppm and in nanoseconds.
Local = collections.namedtuple("Local", "error precision")
# The drift of one clock against another, from the least to the greatest, in ppm; over how many nanoseconds.
Drift = collections.namedtuple("Drift", "least greatest lasts")


class Contradiction:
    """Two answers that can't both be true: the first says that the clock is at `low` or later, the second that it is at
    `high` or earlier, at the reading."""

    def __init__(self, stretch, reading, ends, first, second):
        self.stretch, self.reading, self.first, self.second = stretch, reading, first, second
        self.low, self.high = ends
        self.excess = self.low - self.high
        # The verdict and the drift around it, the least error that reconciles both, and whether the watch named them.
        self.verdict = self.drift = self.reconciles = self.named = None

    def newer(self):
        """Which of both counts from a later reading."""
        return max(self.first, self.second, key=lambda exchange: exchange.t4)


# ---- spans, as the specification has them

def ends_of(exchange, reading, local, error=None):
    """The ends of the wall clock that an answer allows at a reading, as if the set declared this error."""
    error = exchange.error if error is None else error
    low = (F - error) * (reading - exchange.t4 - 2 * local.precision - 1) // (F + local.error)
    high = -((F + error) * -(reading - exchange.t1 + 2 * local.precision + 1) // (F - local.error))
    return exchange.t3 - exchange.precision - 1 + low, exchange.t2 + exchange.precision + 1 + high


def has_width(exchange, local):
    """Whether the width that the watch told is the one by these local numbers."""
    low, high = ends_of(exchange, exchange.landed, local)
    return exchange.width == high - low


def least_error(found, local):
    """The least error, in 1/256 ppm, with which both answers can be true; None where none that can be declared is."""
    def agrees(error):
        first, second = (max(error, each.error) for each in (found.first, found.second))
        return (ends_of(found.first, found.reading, local, first)[0]
                <= ends_of(found.second, found.reading, local, second)[1])
    low, high = 0, GREATEST
    if not agrees(high):
        return None
    while low < high:
        middle = (low + high) // 2
        low, high = (low, middle) if agrees(middle) else (middle + 1, high)
    return low


# ---- the program

def agree(program, exchanges, local):
    """The first contradiction that `agree --pairs` tells of some answers: its reading, its two ends, and the places of
    both answers; None where there is none. How many answers it couldn't be handed, as its input has a limit."""
    lines = [(exchange.t4, (exchange.t1, exchange.t2, exchange.t3), (exchange.exponent, exchange.error))
             for exchange in exchanges]
    fits = lines[-ROOM // 150:]
    left = len(lines) - len(fits)
    done = subprocess.run([*program, "agree", "--pairs"], input=written(fits, *local).encode(), check=False,
                          stdout=subprocess.PIPE, stderr=subprocess.PIPE)
    if done.returncode:
        raise OSError(f"{' '.join(program)} agree --pairs: status {done.returncode}: {done.stderr.decode().strip()}")
    words = re.search(rb"^(\d+) disagree (-?\d+) (-?\d+)\n\d+ between (\d+) (\d+)$", done.stdout, re.M)
    if not words:
        return None, left
    at, low, high, first, second = map(int, words.groups())
    return (fits[(at - 3) // 2][0], (low, high), left + first // 2 - 1, left + second // 2 - 1), left


def contradictions(program, run, local):
    """Each contradiction of a run, one in a stretch at most, and how many answers weren't looked at."""
    found, left = [], 0
    for stretch in run.stretches:
        exchanges = stretch.kept()
        if len(exchanges) < 2:
            continue
        told, more = agree(program, exchanges, local)
        left += more
        if told:
            reading, ends, first, second = told
            found.append(Contradiction(stretch, reading, ends, exchanges[first], exchanges[second]))
    for each in found:
        each.reconciles = least_error(each, local)
        each.named = named_alike(each)
        explain(each, run, local)
    return found, left


def named_alike(found):
    """Whether the watch named the same two answers; None where it named none."""
    pair = found.stretch.between
    return [(each.t1, each.t2, each.t3) for each in (found.first, found.second)] == pair if pair else None


# ---- how fast a clock ran

def hull(points, sign):
    """The lower hull of some points that are in order, or with -1 the upper one."""
    kept = []
    for x, y in points:
        while len(kept) > 1:
            (a, b), (c, d) = kept[-2:]
            if sign * ((c - a) * (y - b) - (d - b) * (x - a)) > 0:
                break
            kept.pop()
        kept.append((x, y))
    return kept


def drift(exchanges, local):
    """The drift of the set's clock against the companion's, by what some answers say without any declared error, as if
    it were even. Where the least is above the greatest, it wasn't even. None where they say nothing of it."""
    if len(exchanges) < 2:
        return None
    x, y = exchanges[0].t1, exchanges[0].t2
    above = sorted((each.t1 - local.precision - x, each.t2 + each.precision + 1 - y) for each in exchanges)
    below = sorted((each.t4 + local.precision - x, each.t3 - each.precision - 1 - y) for each in exchanges)
    above, below = hull(above, 1), hull(below, -1)
    least, greatest = [], []
    for a, b in above:
        for c, d in below:
            if a > c:
                greatest.append((b - d - a + c) / (a - c))
            elif a < c:
                least.append((d - b - c + a) / (c - a))
            elif b < d:
                return Drift(1, -1, 0)
    lasts = exchanges[-1].t4 - exchanges[0].t1
    return Drift(max(least) * 1e6, min(greatest) * 1e6, lasts) if least and greatest else None


def is_even(exchanges, local, bound):
    """Whether a clock that runs evenly, and off by so many ppm at most, gives all of these answers."""
    told = drift(exchanges, local)
    return told is None or max(told.least, -bound) <= min(told.greatest, bound)


def bound(exchanges, local):
    """How far off one clock may be against the other by what both declare, in ppm."""
    error = max(exchange.error for exchange in exchanges)
    return 1e6 * (error + local.error) / (F - local.error)


# ---- what explains a contradiction

def explain(found, run, local):
    """Which of three things explains it, by the answers around it: an oscillator that is worse than declared, a clock
    that was set, or one answer that is wrong."""
    newer, stretch = found.newer(), found.stretch
    kept = stretch.kept()
    at, older = (min(place for place, each in enumerate(kept) if each is one)
                 for one in (newer, found.second if newer is found.first else found.first))
    after, follows = kept[at + 1:], run.stretches[stretch.index + 1:stretch.index + 2]
    if stretch.why == "disagree" and follows and follows[0].visit == stretch.visit + 1:
        after = after + follows[0].kept()
    for count in (AROUND, min(AROUND, max(NEAR, at - older))):
        judge(found, kept[max(0, at - count):at], after[:count], local)
        if found.verdict != "none":
            return


def judge(found, before, after, local):
    """What explains it by these answers before the newer one, and those after it."""
    newer = found.newer()
    near = bound([*before, newer, *after], local)
    fits = {"oscillator": is_even([*before, newer, *after], local, 1e6 * GREATEST / F),
            "set": is_even(before, local, near) and is_even([newer, *after], local, near),
            "one": is_even([*before, *after], local, near)}
    found.drift, found.verdict = drift([*before, newer, *after], local), verdict(fits, len(before), len(after))


def verdict(fits, before, after):
    """The word for it: where too little came on either side, nobody can know."""
    if min(before, after) < 2:
        return "few"
    if fits["oscillator"]:
        return "oscillator"
    if fits["set"] != fits["one"]:
        return "set" if fits["set"] else "one"
    return "set or one" if fits["set"] else "none"


def jump(found, local):
    """From where to where the clock was set, in nanoseconds: forward where it isn't below zero."""
    newer, older = found.newer(), found.second if found.newer() is found.first else found.first
    (low, high), (from_, to) = ends_of(newer, found.reading, local), ends_of(older, found.reading, local)
    return low - to, high - from_


# ---- the datagrams of an exchange

def stamp(nanos):
    return struct.pack(">II", *divmod(nanos, SECOND))


def request_of(exchange):
    """The request's bytes: a companion sends zeros but for the originate value."""
    return bytes(8) + stamp(exchange.t1) + bytes(16)


def answer_of(exchange):
    """The answer's bytes, but for its reserved byte, which no line has: it is 0 here."""
    times = [part for time in (exchange.t1, exchange.t2, exchange.t3) for part in divmod(time, SECOND)]
    return DATAGRAM.pack(0, exchange.kind, exchange.exponent, exchange.error, *times)


def drifts(run, local):
    """The drift over the longest time that goes by one clock, with the visits that it is made of: one, and those after
    it as long as an even drift goes through all of them. None where nothing says anything."""
    best, at = None, 0
    while at < len(run.stretches):
        first, kept = at, run.stretches[at].kept()
        if run.stretches[at].why == "disagree":
            kept = kept[:-1] if not is_even(kept, local, 1e6) else kept
        told, at = drift(kept, local), at + 1
        while told and run.stretches[at - 1].why == "disagree" and at < len(run.stretches):
            more = kept + run.stretches[at].kept()
            joined = drift(more, local)
            if not joined or joined.least > joined.greatest:
                break
            kept, told, at = more, joined, at + 1
        if told and (best is None or told.lasts > best[0].lasts):
            best = told, [stretch.visit for stretch in run.stretches[first:at]], kept[0]
    return best
