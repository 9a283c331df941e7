# SPDX-License-Identifier: MIT OR Apache-2.0
"""The shared object of this package, with the types of its calls.

The environment variable TKCORE_LIBRARY names another one than the package's own.
"""
from __future__ import annotations

import ctypes
import os
from ctypes import POINTER, c_int64, c_size_t, c_uint32, c_uint64, c_void_p
from pathlib import Path
from typing import Any, Dict, Optional, Tuple, Type

from .errors import BY_CODE, Error, OtherVersion

VERSION = "0.3.0"
WORDS, SAVED_WORDS, NTP_SAVED_WORDS = 10, 15, 33
NANOS = 10**9
U32 = (0, 2**32 - 1)
U64 = (0, 2**64 - 1)
I64 = (-2**63, 2**63 - 1)


class CounterValue(ctypes.Structure):
    """`struct tkc_counter`."""

    _fields_ = [("tkc_private", c_uint32 * 3)]


class ClockValue(ctypes.Structure):
    """`struct tkc_clock`."""

    _fields_ = [("tkc_private", c_uint64 * 13)]


class NtpValue(ctypes.Structure):
    """`struct tkc_ntp`."""

    _fields_ = [("tkc_private", c_uint64 * 28)]


class TimexValue(ctypes.Structure):
    """`struct tkc_timex`."""

    _fields_ = [
        ("modes", c_uint32), ("modes_padding", c_uint32), ("offset", c_int64), ("freq", c_int64),
        ("maxerror", c_int64), ("esterror", c_int64), ("status", c_uint32),
        ("status_padding", c_uint32), ("constant", c_int64), ("precision", c_int64),
        ("tolerance", c_int64), ("sec", c_int64), ("sub", c_int64), ("tick", c_int64),
        ("pulse", c_int64 * 8), ("tai", c_uint32), ("padding", c_uint32 * 11),
    ]


class SnapshotValue(ctypes.Structure):
    """`struct tkc_snapshot`."""

    _fields_ = [("tkc_private", c_uint64 * 11)]


class TimeValue(ctypes.Structure):
    """`struct tkc_time`."""

    _fields_ = [("sec", c_int64), ("nsec", c_uint32), ("padding", c_uint32)]


PAGE_SIZE = 8 * (2 + 2 * SAVED_WORDS)
LATCH_SIZE = 8 * (2 + 2 * (WORDS + 3))
PAGE_LAYOUT, LATCH_LAYOUT = 0x746b_6370_6167_6502, 0x746b_636c_6174_6302
Words = c_uint64 * WORDS
SavedWords = c_uint64 * SAVED_WORDS
NtpSavedWords = c_uint64 * NTP_SAVED_WORDS
ReadCounter = ctypes.CFUNCTYPE(c_uint64, c_void_p)

_COUNTER, _CLOCK = POINTER(CounterValue), POINTER(ClockValue)
_SNAPSHOT, _NTP = POINTER(SnapshotValue), POINTER(NtpValue)
_TIME = POINTER(TimeValue)
_NUMBER, _WORDS = POINTER(c_uint32), POINTER(c_uint64)
_MAKE = [_COUNTER, c_uint32, c_uint64, c_uint32]
_LOOK = [c_void_p, c_uint32, ReadCounter, _SNAPSHOT, _WORDS]
# The result and the arguments of each call.
_CALLS = {
    "tkc_version": (c_uint32, []),
    "tkc_counter_new": (c_uint32, [_COUNTER, c_uint32, c_uint32, c_uint32]),
    "tkc_counter_from_hz": (c_uint32, _MAKE),
    "tkc_counter_from_khz": (c_uint32, _MAKE),
    "tkc_counter_finest": (c_uint32, _MAKE),
    "tkc_counter_numbers": (None, [_NUMBER, _NUMBER, _NUMBER, _COUNTER]),
    "tkc_counter_gap": (c_uint64, [_COUNTER, c_uint64, c_uint64]),
    "tkc_counter_nanos": (c_uint64, [_COUNTER, c_uint64]),
    "tkc_clock_open": (c_uint32, [_CLOCK, _COUNTER, c_uint64, c_int64, c_uint32]),
    "tkc_clock_open_at": (c_uint32, [_CLOCK, _COUNTER, c_uint64, c_int64, c_uint32, c_int64,
                                     c_uint32]),
    "tkc_clock_frequency": (c_int64, [_CLOCK]),
    "tkc_clock_tick": (c_int64, [_CLOCK]),
    "tkc_clock_apply": (c_uint32, [_CLOCK, c_uint64, c_uint32, c_int64, c_uint32]),
    "tkc_clock_change_counter": (c_uint32, [_CLOCK, c_uint64, _COUNTER, c_uint64]),
    "tkc_clock_snapshot": (None, [_SNAPSHOT, _CLOCK]),
    "tkc_snapshot_front": (c_uint64, [_SNAPSHOT]),
    "tkc_snapshot_tai": (c_uint32, [_SNAPSHOT]),
    "tkc_snapshot_asleep": (c_uint32, [_SNAPSHOT]),
    "tkc_snapshot_get": (c_uint32, [_TIME, _SNAPSHOT, c_uint32, c_uint64]),
    "tkc_snapshot_coarse": (c_uint32, [_TIME, _SNAPSHOT, c_uint32]),
    "tkc_snapshot_step": (c_uint32, [_TIME, _TIME, _SNAPSHOT, c_uint64, c_int64, c_uint32]),
    "tkc_snapshot_reading": (c_uint32, [_WORDS, _SNAPSHOT, c_uint32, c_int64, c_uint32]),
    "tkc_snapshot_words": (None, [_WORDS, _SNAPSHOT]),
    "tkc_snapshot_from_words": (c_uint32, [_SNAPSHOT, _COUNTER, _WORDS]),
    "tkc_clock_words": (None, [_WORDS, POINTER(c_int64), POINTER(c_int64), _CLOCK]),
    "tkc_clock_from_words": (c_uint32, [_CLOCK, _COUNTER, _WORDS, c_int64, c_int64]),
    "tkc_clock_save": (None, [_WORDS, _CLOCK]),
    "tkc_clock_load": (c_uint32, [_CLOCK, _WORDS]),
    "tkc_snapshot_counter": (None, [_COUNTER, _SNAPSHOT]),
    "tkc_ntp_open": (c_uint32, [_NTP, _COUNTER, c_uint64, c_int64, c_uint32, c_uint32]),
    "tkc_ntp_open_at": (c_uint32, [_NTP, _COUNTER, c_uint64, c_int64, c_uint32, c_int64, c_uint32,
                                   c_uint32]),
    "tkc_ntp_advance": (c_uint32, [_NTP, c_uint64]),
    "tkc_ntp_advance_late": (c_uint32, [_NTP, c_uint64]),
    "tkc_ntp_apply": (c_uint32, [_NTP, c_uint64, c_uint32, c_int64, c_uint32]),
    "tkc_ntp_change_counter": (c_uint32, [_NTP, c_uint64, _COUNTER, c_uint64]),
    "tkc_adjtimex": (c_uint32, [POINTER(TimexValue), _NUMBER, _NTP, c_uint64]),
    "tkc_ntp_next_second": (c_uint32, [_WORDS, _NTP]),
    "tkc_ntp_leap": (c_int64, [_WORDS, _NTP]),
    "tkc_ntp_status": (c_uint32, [_NTP]),
    "tkc_ntp_frequency": (c_int64, [_NTP]),
    "tkc_ntp_tick_length": (c_int64, [_NTP]),
    "tkc_ntp_snapshot": (None, [_SNAPSHOT, _NTP]),
    "tkc_ntp_save": (None, [_WORDS, _NTP]),
    "tkc_ntp_load": (c_uint32, [_NTP, _WORDS]),
    "tkcp_layout": (None, [_WORDS]),
    "tkcp_page_init": (None, [c_void_p, _SNAPSHOT]),
    "tkcp_page_init_clock": (None, [c_void_p, _CLOCK]),
    "tkcp_page_attach": (c_uint32, [c_void_p]),
    "tkcp_page_begin": (None, [c_void_p]),
    "tkcp_page_publish": (None, [c_void_p, _SNAPSHOT]),
    "tkcp_page_publish_clock": (None, [c_void_p, _CLOCK]),
    "tkcp_page_clock": (c_uint32, [c_void_p, _CLOCK]),
    "tkcp_page_recover": (None, [c_void_p, _CLOCK]),
    "tkcp_latch_init": (None, [c_void_p, _SNAPSHOT]),
    "tkcp_latch_attach": (c_uint32, [c_void_p]),
    "tkcp_latch_publish": (None, [c_void_p, _SNAPSHOT]),
    "tkcp_latch_recover": (None, [c_void_p, _CLOCK]),
}
# The calls that may take long, and so release the interpreter's lock.
_LONG_CALLS = {
    "tkc_snapshot_convert": (c_uint32, [c_void_p, c_size_t, POINTER(c_size_t), _SNAPSHOT, c_uint32,
                                        c_void_p, c_size_t]),
    "tkcp_page_look": (c_uint32, _LOOK),
    "tkcp_latch_look": (c_uint32, _LOOK),
}


def _version_of(number: int) -> str:
    return f"{number >> 16}.{number >> 8 & 255}.{number & 255}"


def _check(calls: Any, path: str) -> None:
    """Raises OtherVersion unless the shared object has the values that this package declares."""
    layout = (c_uint64 * 10)()
    major, minor, _ = VERSION.split(".")
    try:
        calls.tkc_version.restype = c_uint32
        calls.tkcp_layout(layout)
        found = calls.tkc_version()
    except AttributeError:
        raise OtherVersion(f"{path} isn't the shared object of this package") from None
    within = (f"{major}.{minor}.0", f"{major}.{minor}.255")
    for what, version in (("", _version_of(found)), ("the headers of ", _version_of(layout[0]))):
        if version.split(".")[:2] != [major, minor]:
            raise OtherVersion(f"the version of {what}{path}", version, within)
    counter, clock, snapshot, ntp, timex = map(
        ctypes.sizeof, (CounterValue, ClockValue, SnapshotValue, NtpValue, TimexValue))
    wanted = [counter, clock, snapshot, PAGE_SIZE, LATCH_SIZE, ntp, timex, PAGE_LAYOUT,
              LATCH_LAYOUT]
    if layout[1:] != wanted:
        raise OtherVersion(f"the list of sizes and layouts of {path}", layout[1:],
                           (wanted, wanted))


def _declare(library: Any, calls: Dict[str, Any]) -> None:
    for name, (result, arguments) in calls.items():
        call = getattr(library, name)
        call.restype, call.argtypes = result, arguments


def load(path: Optional[str] = None) -> Any:
    """Loads a shared object. Returns its calls as the functions of one namespace.

    Raises OtherVersion if it is of another version, and ImportError if it can't be loaded.
    """
    path = path or os.environ.get("TKCORE_LIBRARY") or str(Path(__file__).with_name("_tkcore.so"))
    try:
        short, long = ctypes.PyDLL(path), ctypes.CDLL(path)
    except OSError as error:
        raise ImportError(f"{error}: bindings/python/build_library.py makes it") from None
    _check(short, path)
    _declare(short, _CALLS)
    _declare(long, _LONG_CALLS)
    for name in _LONG_CALLS:
        setattr(short, name, getattr(long, name))
    return short


CALLS = load()


def integer(value: Any, what: str) -> int:
    """Returns the number that an integer of any type has. Raises TypeError for anything else."""
    try:
        number: int = value.__index__()
    except AttributeError:
        raise TypeError(f"{what} is {type(value).__name__}, not an integer") from None
    return number


def fit(value: Any, within: Tuple[int, int], error: Type[Error], what: str,
        documented: Optional[Tuple[int, int]] = None) -> int:
    """Returns a number that can be passed to C, or raises the error with the documented range.

    Raises TypeError for anything else than an integer.
    """
    number = integer(value, what)
    if within[0] <= number <= within[1]:
        return number
    raise error(what, number, documented or within)


def raise_code(code: int, what: str, value: Any = None,
               within: Optional[Tuple[int, int]] = None) -> None:
    """Raises the exception of a code, unless the code is 0."""
    if code:
        raise BY_CODE[code](what, value, within)
