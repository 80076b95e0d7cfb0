#!/usr/bin/env python3
"""Builds the two worlds of an exchange, and checks by a second computation that both explain it.

    tests/limits.py [COUNT [SEED]]       one worked exchange and COUNT drawn ones (10)

The worlds are lists of moments, by the definitions of css_limits: true time, the wall clock and the companion's clock.
The check shares no code with them: it takes each two moments and compares what the clocks went, as fractions, with the
declared errors, and each reading with what its clock shows. It knows the span by its formulas. For each exchange a line
tells the span and how many nanoseconds each world loses at its end.
"""

import random
import sys
from fractions import Fraction
from math import ceil, floor

F = 256_000_000
LOSS = 4
ASKED, RECEIVED, SENT, LANDED, BETWEEN, LAST = range(6)


class Exchange:
    """An answer with its four times, what both ends declare, the landing of its follow-up, and a later reading."""

    def __init__(self, **named):
        self.__dict__.update(named)

    def span(self):
        passed = Fraction((F - self.error) * (self.reading - self.t4 - 2 * self.own_precision - 1), F + self.own_error)
        grown = Fraction((F + self.error) * (self.reading - self.t1 + 2 * self.own_precision + 1), F - self.own_error)
        return self.t3 - self.precision - 1 + floor(passed), self.t2 + self.precision + 1 + ceil(grown)


# ---- the two worlds, by whole numbers


def up(number, divisor):
    return -(-number // divisor)


def longest(error, beyond):
    return F * max(beyond, 0) // (F - error)


def shortest(error, passed):
    return up(F * max(passed - 1, 0), F + error)


def gone(error, passed):
    return max(passed, up((F + error) * shortest(error, passed), F))


def since_asked(it, reading):
    return longest(it.own_error, reading + 2 * it.own_precision + 1 - it.t1)


def latest(it):
    """The wall clock as late as it can be: the request takes no time."""
    wall, own = it.t2 + it.precision, it.t1 - it.own_precision
    passed = max(it.t3 - it.precision - wall, 0)
    sent = shortest(it.error, passed)
    moments = [(0, wall, own), (0, wall, own)]
    moments += [(sent, wall + gone(it.error, passed), own + (F - it.own_error) * sent // F)]
    for reading in (it.t4, it.between):
        time = since_asked(it, reading)
        moments += [(time, wall + up((F + it.error) * time, F), reading + it.own_precision)]
    time = since_asked(it, it.reading)
    return [*moments, (time, wall + (F + it.error) * time // F + 1, it.reading + it.own_precision)]


def earliest(it):
    """The wall clock as early as it can be: the answer takes no time."""
    wall, landed, last = min(it.t2 + it.precision, it.t3 - it.precision), it.t4 + it.own_precision, it.reading
    last -= it.own_precision
    passed = it.t3 - it.precision - wall
    turn, time, sent = shortest(it.error, passed), since_asked(it, it.t4), wall + gone(it.error, passed)
    between = min(max(it.between, landed), last)
    short = shortest(it.own_error, between - landed)
    long = max(shortest(it.own_error, last - landed), short + shortest(it.own_error, last - between))
    return [
        (0, wall - (time - turn), it.t1 - it.own_precision),
        (time - turn, wall, max(landed - (F - it.own_error) * turn // F, 0)),
        (time, sent, landed),
        (time, sent, landed),
        (time + short, sent + (F - it.error) * short // F, between),
        (time + long, max(sent + up((F - it.error) * long, F) - 1, 0), last),
    ]


# ---- the check, by fractions


def keeps(error, passed, went):
    """Whether a clock that went so far while so much true time passed has at most this error."""
    return abs(went - passed) <= Fraction(error, F) * passed + 1


def faults(it, moments):
    """What keeps a world from explaining an exchange."""
    for early in range(len(moments)):
        if min(moments[early]) < 0:
            yield f"moment {early} is below zero"
        for late in range(early, len(moments)):
            passed, wall, own = (b - a for a, b in zip(moments[early], moments[late]))
            if passed < 0:
                yield f"true time falls from {early} to {late}"
            if not keeps(it.error, passed, wall):
                yield f"the wall clock breaks its error from {early} to {late}"
            if not keeps(it.own_error, passed, own):
                yield f"the companion's clock breaks its error from {early} to {late}"
    for moment, reading in ((ASKED, it.t1), (LANDED, it.t4), (BETWEEN, it.between), (LAST, it.reading)):
        if abs(moments[moment][2] - reading) > it.own_precision:
            yield f"the companion's clock doesn't show {reading} at {moment}"
    for moment, reading in ((RECEIVED, it.t2), (SENT, it.t3)):
        if abs(moments[moment][1] - reading) > it.precision:
            yield f"the wall clock doesn't show {reading} at {moment}"


def premises(it):
    """Whether the turnaround fits into the round trip, and the wall clock has run for longer than that."""
    if it.t1 < it.own_precision or it.t2 < it.precision or it.t3 < it.t2:
        return False
    if not it.t4 <= it.between <= it.reading or it.reading < it.t4 + 2 * it.own_precision + 1:
        return False
    round_trip = Fraction((it.t4 + 2 * it.own_precision + 1 - it.t1) * F, F - it.own_error)
    turn = Fraction(max(it.t3 - it.t2 - 2 * it.precision - 1, 0) * F, F + it.error)
    return ceil(turn) <= round_trip and floor(round_trip) <= it.t2 - it.precision


# ---- exchanges


def worked():
    return Exchange(t1=1000, t2=5000, t3=5200, t4=1600, precision=1, error=0, own_error=0, own_precision=0, between=1600,
                    reading=1601)


def draw(dice):
    """An exchange that meets the premises. Some of its turnarounds only just fit."""
    while True:
        size = 10 ** dice.randint(1, 12)
        own_precision, precision = dice.choice((0, 1, 1000, 10**9)), dice.choice((1, 954, 976563))
        error, own_error = dice.randint(0, 25_600_000), dice.randint(0, 2_560_000)
        t1, t2 = own_precision + dice.randrange(size), precision + dice.randrange(3 * size)
        t3 = t2 + dice.choice((0, dice.randrange(size), 2 * precision + dice.randrange(size)))
        least = (t3 - t2 - 2 * precision) * (F - own_error) // (F + error) - 2 * own_precision
        t4 = max(0, t1 + dice.choice((dice.randrange(size), least + dice.randint(-2, 2))))
        reading = t4 + 2 * own_precision + 1 + dice.choice((0, 1, dice.randrange(size)))
        between = dice.randint(t4, reading)
        it = Exchange(t1=t1, t2=t2, t3=t3, t4=t4, precision=precision, error=error, own_error=own_error,
                      own_precision=own_precision, between=between, reading=reading)
        if premises(it):
            return it


def check(it):
    """The faults of both worlds, and a line that tells what they lose."""
    low, high = it.span()
    least, greatest = earliest(it), latest(it)
    lost = (least[LAST][1] - low, high - greatest[LAST][1])
    told = [f"earliest: {fault}" for fault in faults(it, least)] + [f"latest: {fault}" for fault in faults(it, greatest)]
    told += [f"lost {each}" for each in lost if not 0 <= each <= LOSS]
    return told, lost, f"span {low} to {high}, lost {lost[0]} and {lost[1]} ns"


def spoiled(it):
    """Worlds that are no such worlds: with a wall clock of another value at one moment, each has a fault."""
    for make in (earliest, latest):
        for moment in (RECEIVED, SENT):
            moments = make(it)
            time, wall, own = moments[moment]
            moments[moment] = (time, wall + 2 * it.precision + 2, own)
            yield moments


def main():
    count, seed = (int(word) for word in (sys.argv[1:] + ["10", "1"][len(sys.argv) - 1:])[:2])
    dice = random.Random(seed)
    wrong, exact = 0, worked()
    for number, it in enumerate([exact, *(draw(dice) for _ in range(count))]):
        told, lost, line = check(it)
        if number == 0 and lost != (0, 0):
            told.append("the worked exchange loses something")
        told += ["a spoiled world has no fault" for moments in spoiled(it) if not [*faults(it, moments)]]
        wrong += len(told)
        print("\n".join([line, *told]))
    print(f"{count + 1} exchanges, {wrong} faults")
    return 1 if wrong else 0


if __name__ == "__main__":
    sys.exit(main())
