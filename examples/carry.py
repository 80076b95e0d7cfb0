#!/usr/bin/env python3
"""Where a television is, between the reports of a watch.

    css watch --cii URL | examples/carry.py [AFTER [SELECTOR]]

For each report with ticks it prints both ticks, and then those of AFTER nanoseconds later; without AFTER, or with "",
those of this moment. The programme may change before the next report: so for each `control` and `state` line it prints
anew where the television is then. SELECTOR is that of the watch.
"""
import json
import sys
import time

LOCAL_ERROR, LOCAL_PRECISION = 128_000, 1000  # Those of the watch: its --local-error and --local-precision.
PTS = "urn:dvb:css:timeline:pts"
F = 256_000_000


class Television:
    """What the lines have told, as long as it holds."""

    def __init__(self, selector=PTS):
        self.selector, self.report, self.control, self.rate = selector, None, None, None

    def take(self, line):
        if line["event"] == "visit":
            self.report = self.control = self.rate = None
        elif line["event"] in ("end", "slept"):
            self.report = None
        elif line["event"] == "state":
            self.rate = self.rate_in(line["state"]["timelines"] or [])
        elif line["event"] == "control":
            self.control = line.get("control")
        elif line["event"] == "report":
            self.report = line if "ticks" in line else None

    def rate_in(self, timelines):
        """The rate of the first timeline with the selector; None where it isn't known."""
        for timeline in timelines:
            if timeline["timelineSelector"] == self.selector:
                return timeline["timelineProperties"]
        return {"unitsPerSecond": 90000, "unitsPerTick": 1} if self.selector == PTS else None

    def wall(self, reading):
        """From where to where its wall clock is, in nanoseconds, at a reading not below that of the report."""
        low, high = map(int, self.report.get("agreed") or self.report["wall"])
        error, past, blur = self.report["error"], reading - int(self.report["reading"]), 2 * LOCAL_PRECISION + 1
        low += (F - error) * (past - blur) // (F + LOCAL_ERROR) - 1
        high -= (F + error) * -(past + blur) // (F - LOCAL_ERROR) - 1
        return low, high

    def tick(self, wall):
        """The tick at a time of its wall clock, by the last control timestamp and the rate of the last state."""
        rate, control = self.rate, self.control
        rise = (wall - int(control["wallClockTime"])) * control["timelineSpeedMultiplier"] * rate["unitsPerSecond"]
        return int(control["contentTime"]) + rise // (rate["unitsPerTick"] * 10**9)

    def position(self, reading):
        """The least and the greatest tick at which it can be; None where that isn't known."""
        if not self.report or not self.rate or not self.control or self.control["contentTime"] is None:
            return None
        return sorted(self.tick(end) for end in self.wall(reading))


def main(words):
    after, television = words[0] if words else "", Television(*words[1:])
    for line in map(json.loads, sys.stdin):
        television.take(line)
        report = television.report
        if report and line["event"] in ("report", "control", "state"):
            reading = int(report["reading"]) + int(after) if after else time.monotonic_ns()
            told = ["ticks", *line["ticks"]] if line is report else [line["event"]]
            print(report["number"], *told, "then", *television.position(reading) or ["unknown"], flush=True)


if __name__ == "__main__":
    main(sys.argv[1:])
