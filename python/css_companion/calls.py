"""The shared object's calls and types, as css_companion.h has them."""
from __future__ import annotations

import ctypes
import os
from ctypes import POINTER, Structure, c_bool, c_char_p, c_int32, c_int64, c_size_t, c_uint32, c_uint64, c_void_p
from pathlib import Path

# The least version of the header that it goes with, and the name of the shared object.
VERSION, NAME = 1, "libcss_companion.so.1"


class Handle(Structure):
    _fields_ = [("live", c_bool), ("age", c_uint64), ("at", c_void_p)]


class SpanOfC(Structure):
    _fields_ = [("lo", c_int64), ("hi", c_int64)]


class PositionOfC(Structure):
    _fields_ = [("lo", c_int64), ("hi", c_int64), ("content", c_int64), ("wall", c_uint64),
                ("units_per_tick", c_uint32), ("units_per_second", c_uint32), ("speed", c_int32)]


class RateOfC(Structure):
    _fields_ = [("units_per_tick", c_uint32), ("units_per_second", c_uint32)]


class ReadingsOfC(Structure):
    _fields_ = [("first", c_uint64), ("last", c_uint64)]


class BoundOfC(Structure):
    _fields_ = [("content", c_int64), ("wall", c_uint64), ("infinite", c_bool)]


# The greatest of all versions. What is in it is the library's.
SNAPSHOT_BYTES = 512

COMPANION, USED = POINTER(Handle), POINTER(c_size_t)
TEXT, ROOM = [c_char_p, c_size_t], [c_void_p, c_size_t, USED]
CALLS = {
    "css_companion_new": [COMPANION, *TEXT, *TEXT, c_uint32, c_uint64],
    "css_companion_slept": [COMPANION],
    "css_companion_ask": [COMPANION, c_uint64, c_void_p],
    "css_companion_land": [COMPANION, *TEXT, c_uint64],
    "css_companion_wall": [COMPANION, c_uint64, POINTER(SpanOfC)],
    "css_companion_cii": [COMPANION, *TEXT],
    "css_companion_cii_field": [COMPANION, c_uint32, *ROOM],
    "css_companion_cii_state": [COMPANION, *ROOM],
    "css_companion_timeline": [COMPANION, c_size_t, POINTER(RateOfC), *ROOM],
    "css_companion_setup": [COMPANION, *ROOM],
    "css_companion_control": [COMPANION, *TEXT],
    "css_companion_ts_closed": [COMPANION],
    "css_companion_presentation": [POINTER(BoundOfC), POINTER(BoundOfC), *ROOM],
    "css_companion_position": [COMPANION, c_uint64, POINTER(PositionOfC)],
    "css_companion_lead": [COMPANION, c_uint64, c_int64, POINTER(SpanOfC)],
    "css_companion_when": [COMPANION, c_int64, POINTER(ReadingsOfC)],
    "css_companion_until": [COMPANION, c_uint64, POINTER(c_uint64)],
    "css_companion_snapshot": [COMPANION, c_void_p],
    "css_snapshot_position": [c_void_p, c_uint64, POINTER(PositionOfC)],
    "css_companion_report": [COMPANION, c_uint64, c_uint64, *ROOM],
    "css_companion_words": [c_uint32, *ROOM],
}
# Those that an older library lacks.
LATER = {
    "css_companion_agreed": [COMPANION, c_uint64, POINTER(SpanOfC)],
    "css_companion_fault": [COMPANION, *ROOM],
    "css_companion_next": [COMPANION, c_uint64, c_int64, POINTER(c_uint64), POINTER(c_uint64)],
}


def place() -> str:
    """Where the shared object is: $CSS_COMPANION_SO, or as `./css --library DIR` lays it out, or where the system has
    it."""
    beside = Path(__file__).resolve().parents[2] / "lib" / NAME
    return os.environ.get("CSS_COMPANION_SO") or (str(beside) if beside.is_file() else NAME)


def load() -> ctypes.CDLL:
    """The library with the types of its calls. OSError where there is none, or it is too old."""
    library = ctypes.CDLL(place())
    library.css_companion_version.restype = c_uint32
    if (found := library.css_companion_version()) < VERSION:
        raise OSError(f"{place()} has version {found}, and this package is for version {VERSION} and later")
    for name, types in {**CALLS, **LATER}.items():
        if name in CALLS or hasattr(library, name):
            call = getattr(library, name)
            call.argtypes, call.restype = types, c_uint32
    library.css_companion_free.argtypes, library.css_companion_free.restype = [COMPANION], None
    library.css_companion_age.argtypes, library.css_companion_age.restype = [COMPANION], c_uint64
    return library


LIBRARY = load()
