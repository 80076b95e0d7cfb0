"""What a call's code says, as exceptions. Their groups say what to do."""
from __future__ import annotations

from typing import Callable


class CompanionError(Exception):
    """Why a call has no answer: its code, and the library's word for it."""

    code: int

    def __init__(self, code: int, word: str):
        super().__init__(word)
        self.code = code


class Fault(CompanionError):
    """The caller's mistake, or want of memory. Nothing has changed."""


class OutOfMemory(Fault, MemoryError):
    """There is no memory. The call may be made again."""


class OutOfRange(Fault, ValueError):
    """A number, a length or an interval is out of range."""


class Early(Fault, ValueError):
    """The reading is below one that the companion had before."""


class Closed(Fault, ValueError):
    """The companion was closed."""


class Refused(CompanionError):
    """A datagram was refused. That is nobody's mistake here: read on."""


class BeginAnew(CompanionError):
    """Hang up, and begin with a new companion."""


class TextRefused(BeginAnew):
    """The television said what can't be, or moves an address."""


class Disagree(BeginAnew):
    """Its answers contradict each other: it was started anew, or its clock was set."""


class Cause(CompanionError):
    """Why there is no answer now. It may come: go on, and ask again."""


MEMORY, RANGE, EARLY, CLOSED, NO_ROOM, TOO_WIDE, NOT_UTF8 = range(1, 8)
DISAGREE, NULL, NEVER = 36, 54, 55

KINDS = {MEMORY: OutOfMemory, RANGE: OutOfRange, EARLY: Early, CLOSED: Closed, TOO_WIDE: OutOfRange,
         NOT_UTF8: OutOfRange, DISAGREE: Disagree}


def kind_of(code: int) -> type[CompanionError]:
    """The exception of a code: one of the header's four groups."""
    of_group = Fault if code < 16 else Refused if code < 32 else TextRefused if code < 48 else Cause
    return KINDS.get(code, of_group)


def check(code: int, word: Callable[[int], str]) -> None:
    """Raises what a code says; nothing where the call was done."""
    if code:
        raise kind_of(code)(code, word(code))
