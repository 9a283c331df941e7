# SPDX-License-Identifier: MIT OR Apache-2.0
"""The timekeeping core of the Linux kernel: clocks from the readings of a counter.

    counter = tkcore.Counter.from_hz(bits=48, hz=24_000_000)
    clock = tkcore.Clock(counter, reading=0, realtime=1_700_000_000 * tkcore.NANOS)
    clock.set_frequency(24_000_000, 65_536)
    clock.snapshot().get(48_000_000, tkcore.ClockId.REALTIME)

Times are whole nanoseconds, readings and stamps are cycles of the counter, and a frequency is in
2^-16 ppm. A refused call raises the exception of its code, such as Behind.
"""
from ._library import NANOS, VERSION
from .clock import Clock
from .commands import Command
from .counter import Counter
from .errors import (Asleep, Awake, BadAdjust, BadBits, BadBuffer, BadClock, BadCommand, BadLayout,
                     BadMult, BadRate, BadRoom, BadShift, BadWords, Behind, Busy, Error, Full,
                     Further, Invalid, Never, NotReached, OtherVersion, Range, Refused)
from .journal import Journal
from .ntp import Mode, Reply, Status, SteeredClock, TimeState, Timex
from .page import Latch, Page
from .snapshot import ClockId, Snapshot

__version__ = VERSION

__all__ = [
    "Asleep", "Awake", "BadAdjust", "BadBits", "BadBuffer", "BadClock", "BadCommand", "BadLayout",
    "BadMult", "BadRate", "BadRoom", "BadShift", "BadWords", "Behind", "Busy", "Clock", "ClockId",
    "Command", "Counter", "Error", "Full", "Further", "Invalid", "Journal", "Latch", "Mode",
    "NANOS", "Never", "NotReached", "OtherVersion", "Page", "Range", "Refused", "Reply", "Snapshot",
    "Status", "SteeredClock", "TimeState", "Timex",
]
