"""A companion, as a class over the library's calls."""
from __future__ import annotations

import ctypes
import json
import operator
import threading
from ctypes import byref, c_size_t, c_uint64
from enum import IntEnum
from fractions import Fraction
from typing import Any, Callable, NamedTuple, Optional, Union

from . import calls, faults
from .calls import LIBRARY
from .clock import Clock, MachineClock

PTS = "urn:dvb:css:timeline:pts"
GREATEST = 2**32 * 10**9 - 1
Text = Union[str, bytes, bytearray, memoryview]


class Span(NamedTuple):
    """From `lo` to `hi`, in nanoseconds."""

    lo: int
    hi: int


class Position(NamedTuple):
    """The ticks from `lo` to `hi` that the television may be presenting at a reading, and what they go by: at `wall`
    nanoseconds of its wall clock the tick is `content`, and the timeline goes on by `speed * rate` ticks a second."""

    reading: int
    lo: int
    hi: int
    content: int
    wall: int
    units_per_tick: int
    units_per_second: int
    speed: int

    @property
    def rate(self) -> Fraction:
        """Ticks a second at speed 1."""
        return Fraction(self.units_per_second, self.units_per_tick)


class Readings(NamedTuple):
    """Readings of the own clock, from the first to the last."""

    first: int
    last: int


class Next(NamedTuple):
    """From which readings on a request is due, and a tick may be shown; None where it is never shown."""

    ask: int
    look: Optional[int]


class Timeline(NamedTuple):
    """A timeline that the television lists. It has `units_per_second / units_per_tick` ticks a second."""

    selector: str
    units_per_tick: int
    units_per_second: int


class Bound(NamedTuple):
    """One end of a presentation window: tick `content` at `wall` nanoseconds of the television's wall clock; without
    `wall` however early or late."""

    content: int
    wall: Optional[int] = None


class Property(IntEnum):
    """A property of the content's state that is a text."""

    PROTOCOL_VERSION = 0
    MRS_URL = 1
    CONTENT_ID = 2
    CONTENT_ID_STATUS = 3
    PRESENTATION_STATUS = 4
    WC_URL = 5
    TS_URL = 6
    TE_URL = 7


def whole(value: int, bits: int, signed: bool = False) -> int:
    """A number that the call's type holds. ctypes would cut it off."""
    number = operator.index(value)
    low, high = (-(1 << bits - 1), 1 << bits - 1) if signed else (0, 1 << bits)
    if not low <= number < high:
        raise faults.OutOfRange(faults.RANGE, f"{number} isn't below 2^{bits - signed} and not below {low}")
    return number


def unsigned(value: int) -> int:
    return whole(value, 64)


def in_bytes(text: Text) -> bytes:
    """What a session or a socket gave. A lone surrogate is no UTF-8: the library refuses it."""
    return text.encode("utf-8", "surrogatepass") if isinstance(text, str) else bytes(memoryview(text))


def taken(call: Callable[..., int], *words: Any) -> bytes:
    """What a call puts into a buffer."""
    room, used = 1024, c_size_t(0)
    while True:
        out = ctypes.create_string_buffer(room)
        code = call(*words, out, room, byref(used))
        if code != faults.NO_ROOM:
            check(code)
            return out.raw[:used.value]
        room = used.value


def word_of(code: int) -> str:
    out, used = ctypes.create_string_buffer(256), c_size_t(0)
    return f"code {code}" if LIBRARY.css_companion_words(code, out, 256, byref(used)) else out.raw[:used.value].decode()


def check(code: int) -> None:
    faults.check(code, word_of)


def bound_of(bound: Bound) -> calls.BoundOfC:
    wall = 0 if bound.wall is None else unsigned(bound.wall)
    return calls.BoundOfC(whole(bound.content, 64, signed=True), wall, bound.wall is None)


def presentation(earliest: Bound, latest: Bound) -> str:
    """The text that tells a television when you can present."""
    return taken(LIBRARY.css_companion_presentation, byref(bound_of(earliest)), byref(bound_of(latest))).decode()


def position_of(reading: int, told: calls.PositionOfC) -> Position:
    return Position(reading, *(getattr(told, name) for name, _ in calls.PositionOfC._fields_))


class Snapshot:
    """What positions went by when it was taken, as plain data. Any thread may ask it at any time."""

    def __init__(self, taken_by: Callable[[Any], int]):
        self._data = ctypes.create_string_buffer(calls.SNAPSHOT_BYTES)
        check(taken_by(self._data))

    def position(self, reading: int) -> Position:
        told = calls.PositionOfC()
        check(LIBRARY.css_snapshot_position(self._data, unsigned(reading), byref(told)))
        return position_of(reading, told)


class Companion:
    """Follows one timeline of a television. The sockets are yours.

    `selector` names the timeline, and `stem` says how the content id has to begin. `error` is that of the own clock in
    1/256 ppm, and `precision` that of its readings in nanoseconds. A call that is given no reading takes one of
    `clock`, by default the machine's; each call looks first whether the machine slept, and forgets the answers then.

    Any thread may call it: one waits for another. No call waits for anything else.
    """

    def __init__(self, selector: str = PTS, stem: str = "", *, error: int = 128_000, precision: int = 1000,
                 clock: Optional[Clock] = None):
        self._handle, self._lock = calls.Handle(False, 0, None), threading.Lock()
        self._clock: Clock = clock or MachineClock()
        words = [part for text in (selector, stem) for part in (in_bytes(text), len(in_bytes(text)))]
        self._call(LIBRARY.css_companion_new, *words, whole(error, 32), unsigned(precision))

    def close(self) -> None:
        """Ends it: each later call raises Closed. Twice is fine."""
        with self._lock:
            LIBRARY.css_companion_free(byref(self._handle))

    def __enter__(self) -> Companion:
        return self

    def __exit__(self, *_: object) -> None:
        self.close()

    def __del__(self) -> None:
        if hasattr(self, "_lock"):
            self.close()

    # ---- the wall clock, over UDP to the property WC_URL

    def ask(self, reading: Optional[int] = None) -> bytes:
        """The request to send now."""
        out = ctypes.create_string_buffer(32)
        self._at(LIBRARY.css_companion_ask, reading, out)
        return out.raw

    def land(self, datagram: Union[bytes, bytearray, memoryview], reading: Optional[int] = None
             ) -> Optional[faults.Refused]:
        """Takes in a datagram. None where it is accepted, else why it is refused; read on then. It raises Disagree
        where the television contradicts itself by it: no call has an answer then, until `slept`."""
        data = bytes(memoryview(datagram))
        with self._lock:
            at = self._reading(reading)
            code = LIBRARY.css_companion_land(byref(self._handle), data, len(data), at)
        try:
            check(code)
        except faults.Refused as why:
            return why
        return None

    def slept(self) -> None:
        """The own clock may have stood still. All requests and answers are forgotten."""
        self._call(LIBRARY.css_companion_slept)

    def wall(self, reading: Optional[int] = None) -> Span:
        """What the television's wall clock shows."""
        return self._span(LIBRARY.css_companion_wall, reading)

    def agreed(self, reading: Optional[int] = None) -> Span:
        """What all answers since the last sleep say together of it."""
        return self._span(later("css_companion_agreed"), reading)

    # ---- the sessions

    def cii(self, text: Text) -> None:
        """Takes in a text of the CII session."""
        data = in_bytes(text)
        self._call(LIBRARY.css_companion_cii, data, len(data))

    def field(self, which: Property) -> Optional[str]:
        """A property of the content's state; None where it is null or wasn't told."""
        return self._text_or_none(LIBRARY.css_companion_cii_field, Property(which))

    def state(self) -> Optional[dict[str, Any]]:
        """The whole state; None where nothing was told yet."""
        text = self._text_or_none(LIBRARY.css_companion_cii_state)
        return None if text is None else json.loads(text)

    def timelines(self) -> list[Timeline]:
        """Those that the television lists."""
        listed: list[Timeline] = []
        while True:
            rate = calls.RateOfC()
            selector = self._text_or_none(LIBRARY.css_companion_timeline, len(listed), byref(rate))
            if selector is None:
                return listed
            listed.append(Timeline(selector, rate.units_per_tick, rate.units_per_second))

    def setup(self) -> str:
        """The text to send once the session at the property TS_URL is open. It begins anew in the companion too."""
        return self._text(LIBRARY.css_companion_setup)

    def control(self, text: Text) -> None:
        """Takes in a text of that session. Where it can't be read, that is the cause from now on."""
        data = in_bytes(text)
        self._call(LIBRARY.css_companion_control, data, len(data))

    def ts_closed(self) -> None:
        """That session closed. Open it again, and send `setup`."""
        self._call(LIBRARY.css_companion_ts_closed)

    def fault(self) -> Optional[str]:
        """Which property or member the last text was refused for."""
        return self._text_or_none(later("css_companion_fault"))

    # ---- where the television is

    @property
    def age(self) -> int:
        """It rises where something came by which an answer may be another one."""
        with self._lock:
            return int(LIBRARY.css_companion_age(byref(self._handle)))

    def position(self, reading: Optional[int] = None) -> Position:
        """The ticks that the television may be presenting. Where there are none, Cause says why."""
        told = calls.PositionOfC()
        return position_of(self._at(LIBRARY.css_companion_position, reading, byref(told)), told)

    def lead(self, tick: int, reading: Optional[int] = None) -> Span:
        """By how much somebody at the beginning of `tick` is ahead of the television; below 0 it is behind."""
        return self._span(LIBRARY.css_companion_lead, reading, whole(tick, 64, signed=True))

    def when(self, tick: int) -> Optional[Readings]:
        """Within which readings the television shows a tick; None where it doesn't, as far as is known now."""
        told = calls.ReadingsOfC()
        if not self._may(LIBRARY.css_companion_when, whole(tick, 64, signed=True), byref(told)):
            return None
        return Readings(told.first, told.last)

    def until(self, width: int) -> Optional[int]:
        """The last reading at which `wall` is at most so wide; None where it is wider already."""
        told = c_uint64(0)
        return told.value if self._may(LIBRARY.css_companion_until, unsigned(width), byref(told)) else None

    def next(self, width: int, tick: int) -> Next:
        """When a request is due so that `wall` is at most so wide, and when to look whether a tick is shown."""
        ask, look = c_uint64(0), c_uint64(0)
        numbers = unsigned(width), whole(tick, 64, signed=True)
        self._awake(later("css_companion_next"), *numbers, byref(ask), byref(look))
        return Next(ask.value, None if look.value == GREATEST else look.value)

    def snapshot(self) -> Snapshot:
        """What positions go by now, for another thread. Take a new one when the age rises."""
        return Snapshot(lambda data: self._code(LIBRARY.css_companion_snapshot, data))

    def report(self, number: int, reading: Optional[int] = None) -> str:
        """The line of a report, as `css companion` prints it."""
        with self._lock:
            at = self._reading(reading)
            words = byref(self._handle), unsigned(number), at
            return taken(LIBRARY.css_companion_report, *words).decode()

    # ---- how a call is made

    def _look(self) -> None:
        """Says `slept` where the machine slept. It is for whoever has the lock."""
        if self._clock.has_slept():
            LIBRARY.css_companion_slept(byref(self._handle))

    def _reading(self, reading: Optional[int]) -> int:
        """The reading that was given, or one of now, after a look. It is for whoever has the lock."""
        self._look()
        return self._clock.reading() if reading is None else unsigned(reading)

    def _code(self, call: Callable[..., int], *words: Any) -> int:
        with self._lock:
            self._look()
            return call(byref(self._handle), *words)

    def _call(self, call: Callable[..., int], *words: Any) -> None:
        with self._lock:
            code = call(byref(self._handle), *words)
        check(code)

    def _awake(self, call: Callable[..., int], *words: Any) -> None:
        check(self._code(call, *words))

    def _may(self, call: Callable[..., int], *words: Any) -> bool:
        """Makes a call, and tells whether it has an answer."""
        code = self._code(call, *words)
        if code != faults.NEVER:
            check(code)
        return code != faults.NEVER

    def _at(self, call: Callable[..., int], reading: Optional[int], *words: Any) -> int:
        """Makes a call at a reading, which it tells."""
        with self._lock:
            at = self._reading(reading)
            code = call(byref(self._handle), at, *words)
        check(code)
        return at

    def _span(self, call: Callable[..., int], reading: Optional[int], *words: Any) -> Span:
        told = calls.SpanOfC()
        self._at(call, reading, *words, byref(told))
        return Span(told.lo, told.hi)

    def _text(self, call: Callable[..., int], *words: Any) -> str:
        with self._lock:
            return taken(call, byref(self._handle), *words).decode()

    def _text_or_none(self, call: Callable[..., int], *words: Any) -> Optional[str]:
        try:
            return self._text(call, *words)
        except faults.Cause as why:
            if why.code != faults.NULL:
                raise
            return None


def later(name: str) -> Callable[..., int]:
    """A call that an older library lacks."""
    call: Optional[Callable[..., int]] = getattr(LIBRARY, name, None)
    if call is None:
        raise NotImplementedError(f"the library has no {name} yet")
    return call
