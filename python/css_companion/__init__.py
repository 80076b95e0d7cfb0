"""Follow a television of ETSI TS 103 286-2 (DVB-CSS).

`follow` does all of it over asyncio: `async for place in follow("ws://192.168.1.20:6677/cii"): ..`. A `Companion` has
the calls of css_companion.h, for a loop with sockets of your own. docs/PYTHON.md tells of both.
"""
from .clock import Clock, MachineClock
from .companion import Bound, Companion, Position, Property, Readings, Snapshot, Span, Timeline, presentation
from .faults import (BeginAnew, Cause, Closed, CompanionError, Disagree, Early, Fault, OutOfMemory, OutOfRange, Refused,
                     TextRefused)
from .follow import Place, follow

__all__ = [
    "BeginAnew", "Bound", "Cause", "Clock", "Closed", "Companion", "CompanionError", "Disagree", "Early", "Fault",
    "MachineClock", "OutOfMemory", "OutOfRange", "Place", "Position", "Property", "Readings", "Refused", "Snapshot",
    "Span", "TextRefused", "Timeline", "follow", "presentation",
]
