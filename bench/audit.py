#!/usr/bin/env python3
"""Times `css audit` of a record of one megabyte, and of thirty-two.

    bench/audit.py [PROGRAM]       crates/css/out/proved/css, which ./css builds, where none is given

The record has a paused programme. Each turn makes a report, asks the wall clock, and takes an answer. Printed are the
processor time for a megabyte and the peak of resident memory. A megabyte must take at most 50 ms, and the memory must
not grow with the record.
"""

import struct
import sys
import tempfile

import programs

PROGRAM = programs.css(*sys.argv[1:2])
CII = b'{"timelines":null,"tsUrl":"ws://127.0.0.1:6678/ts","wcUrl":"udp://127.0.0.1:6677"}'
TS = b'{"contentTime":"900000","timelineSpeedMultiplier":0,"wallClockTime":"0"}'
SECONDS = 0.05
RUNS = 5


def stamp(time):
    return struct.pack(">II", *divmod(time, 10**9))


def response(asked):
    """An answer to the request of this reading, by a wall clock that is a second ahead."""
    wall = 10**9 + asked
    return struct.pack(">BBbBI", 0, 1, -30, 0, 0) + stamp(asked) + stamp(wall + 1) + stamp(wall + 2)


def turns(size):
    """The lines of a record of at least so many bytes, some at a time."""
    first = ["css-record 1 0 0 urn:dvb:css:timeline:pts -", "turn 0", f"cii {CII.hex()}", f"ts {TS.hex()}"]
    text = "".join(line + "\n" for line in first).encode()
    length, reports = 0, 0
    while length < size:
        yield text
        length += len(text)
        at = 1_000_000 * (reports + 1)
        words = "ticks 900000 900000" if reports else "none NoAnswer"
        reports += 1
        turn = [f"turn {at}", f"report {reports} {words}", f"ask {at + 1}", f"land {at + 4} {response(at + 1).hex()}"]
        text = "".join(line + "\n" for line in turn).encode()


def audit(given):
    """The status of an audit, what it prints, its processor seconds, and its peak in megabytes."""
    given.seek(0)
    with tempfile.TemporaryFile() as written:
        status, seconds, peak = programs.measured([PROGRAM, "audit"], stdin=given, stdout=written)
        written.seek(0)
        return status, written.read(), seconds, peak


def measured(size):
    """Seconds for a megabyte, and the peak, of audits of a record of this size, which have to say yes."""
    with tempfile.TemporaryFile() as given:
        count = -1
        for text in turns(size):
            given.write(text)
            count += 1
        length = given.tell()
        runs = [audit(given) for _ in range(RUNS)]
    for status, told, _, _ in runs:
        if status != 0 or told != b"reports %d\n" % count:
            sys.exit(f"the audit ended with {status}: {told}")
    spent, peak = min(run[2] for run in runs) / (length / 1e6), max(run[3] for run in runs)
    print(f"{length} bytes, {count} reports: {1000 * spent:.1f} ms a megabyte, {peak:.1f} MB at most")
    return spent, peak


def main():
    short, long = measured(1_000_000), measured(32_000_000)
    if max(short[0], long[0]) > SECONDS:
        sys.exit("a megabyte takes too long")
    if long[1] > short[1] + 1:
        sys.exit("the memory grows with the record")


if __name__ == "__main__":
    main()
