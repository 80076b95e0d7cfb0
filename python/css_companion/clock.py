"""The own clock: readings that nobody sets, and whether the machine slept."""
from __future__ import annotations

import time
from typing import Protocol


class Clock(Protocol):
    """A clock that nobody sets."""

    def reading(self) -> int:
        """Its reading now, in nanoseconds below 2^32 seconds. It never falls."""

    def has_slept(self) -> bool:
        """Whether it may have stood still since the last look."""


class MachineClock:
    """The machine's monotone clock. Each companion has its own, since it keeps how long the machine has slept."""

    def __init__(self) -> None:
        self._boot = getattr(time, "CLOCK_BOOTTIME", None)
        self._most: int | None = None
        self.has_slept()

    def reading(self) -> int:
        return time.monotonic_ns()

    def has_slept(self) -> bool:
        """Whether the machine slept since the last look. One clock goes on in a sleep and the other doesn't. Their
        difference is known to within the two readings around it."""
        if self._boot is None:
            return False
        before, boot, after = time.monotonic_ns(), time.clock_gettime_ns(self._boot), time.monotonic_ns()
        slept = self._most is not None and boot - after > self._most
        if slept or self._most is None or boot - before < self._most:
            self._most = boot - before
        return slept
