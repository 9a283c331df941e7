# SPDX-License-Identifier: MIT OR Apache-2.0
"""The running clocks of a counter."""
from __future__ import annotations

from ctypes import byref, c_int64
from typing import Any, Iterable, Tuple

from ._library import (CALLS, I64, NANOS, U64, ClockValue, SavedWords, SnapshotValue, Words, fit,
                       raise_code)
from .commands import Commanded, split
from .counter import Counter
from .errors import BY_CODE, BadWords, Invalid, Range
from .snapshot import SETTABLE, Snapshot, words_of

UPTIME_LIMIT = 946_080_000 * NANOS


def split_uptime(uptime: int) -> Tuple[int, int]:
    """Returns an uptime in ns as seconds and nanoseconds, for a call that tests its limit."""
    bounded = fit(min(uptime, UPTIME_LIMIT), (0, UPTIME_LIMIT), Invalid, "uptime",
                  (0, UPTIME_LIMIT - 1))
    return divmod(bounded, NANOS)


def raise_opening(code: int, counter: Counter, reading: int, realtime: int, uptime: int) -> None:
    """Raises the exception of a code by which clocks with an uptime weren't opened, if it is one."""
    if code == Range.code:
        raise Range("uptime", uptime, (0, UPTIME_LIMIT - 1))
    if code:
        fit(reading, (0, counter.max_reading), Invalid, "reading")
        raise BY_CODE[code]("realtime", realtime, (uptime, SETTABLE[1] * NANOS + NANOS - 1))


class Clock(Commanded):
    """The running clocks of a counter, opened at a reading with REALTIME at `realtime` ns since
    1970. MONOTONIC, MONOTONIC_RAW and BOOTTIME are `uptime` ns there, 0 if it isn't given.

    The reading is 0 to 2^bits - 1 cycles, `realtime` is below 8277292036 s, and `uptime` is below
    946080000 s and not above `realtime`. A refused command changes nothing. Apply a command,
    usually `update`, at least once in each half of the counter's range.

    Don't let two threads use one Clock without a lock. A Snapshot may be shared.

    Raises, in this order: Invalid if the reading, `realtime` or a negative `uptime` is out of its
    range; Range if `uptime` is at the limit of MONOTONIC or past it; Invalid if `realtime` is below
    `uptime`.
    """

    __slots__ = ("_value", "counter")

    counter: Counter

    def __init__(self, counter: Counter, reading: int, realtime: int, uptime: int = 0) -> None:
        value = ClockValue()
        reading = fit(reading, U64, Invalid, "reading", (0, counter.max_reading))
        real = split(realtime, SETTABLE, "realtime")
        past = split_uptime(uptime)
        code = CALLS.tkc_clock_open_at(byref(value), byref(counter._value), reading, *real, *past)
        raise_opening(code, counter, reading, realtime, uptime)
        self._value, self.counter = value, counter

    @classmethod
    def from_words(cls, counter: Counter, words: Iterable[int], frequency: int, tick: int) -> Clock:
        """Returns the clocks of a counter that the result of `words` represents.

        Raises BadWords if no running clocks have these numbers.
        """
        value = ClockValue()
        code = CALLS.tkc_clock_from_words(
            byref(value), byref(counter._value), words_of(words),
            fit(frequency, I64, BadWords, "frequency"), fit(tick, I64, BadWords, "tick"))
        raise_code(code, "the words represent no clocks of this counter")
        return cls._of_value(value, counter)

    @classmethod
    def _of_value(cls, value: ClockValue, counter: Counter) -> Clock:
        clock = cls.__new__(cls)
        clock._value, clock.counter = value, counter
        return clock

    @classmethod
    def _with_counter(cls, value: ClockValue) -> Clock:
        snapshot = SnapshotValue()
        CALLS.tkc_clock_snapshot(byref(snapshot), byref(value))
        return cls._of_value(value, Counter._of_snapshot(snapshot))

    def words(self) -> Tuple[Tuple[int, ...], int, int]:
        """Returns the ten numbers of the clocks' snapshot, the frequency in 2^-16 ppm as it was
        set, and the tick in us."""
        words, frequency, tick = Words(), c_int64(), c_int64()
        CALLS.tkc_clock_words(words, byref(frequency), byref(tick), byref(self._value))
        return tuple(words), frequency.value, tick.value

    @classmethod
    def load(cls, words: Iterable[int]) -> Clock:
        """Returns the clocks that the result of `save` represents.

        Raises BadWords if no running clocks of any counter have these words.
        """
        value = ClockValue()
        code = CALLS.tkc_clock_load(byref(value), words_of(words, SavedWords))
        raise_code(code, "the words represent no clocks")
        return cls._with_counter(value)

    def save(self) -> Tuple[int, ...]:
        """Returns the 15 numbers that represent the clocks with their counter: those of their
        snapshot; bits, mult and shift of the counter; the frequency and the tick, modulo 2^64."""
        words = SavedWords()
        CALLS.tkc_clock_save(words, byref(self._value))
        return tuple(words)

    @property
    def frequency(self) -> int:
        """The frequency as it was set, in 2^-16 ppm."""
        frequency: int = CALLS.tkc_clock_frequency(byref(self._value))
        return frequency

    @property
    def tick(self) -> int:
        """The tick, in us."""
        tick: int = CALLS.tkc_clock_tick(byref(self._value))
        return tick

    def snapshot(self) -> Snapshot:
        """Returns a snapshot of the clocks, for reads."""
        value = SnapshotValue()
        CALLS.tkc_clock_snapshot(byref(value), byref(self._value))
        return Snapshot._of_value(value, self.counter)

    def change_counter(self, reading: int, counter: Counter, first: int) -> None:
        """Lets the clocks go on over another counter, starting at its reading `first`. `reading` is
        a reading of the present counter; take both at the same moment.

        Every clock keeps its time, and the frequency, the tick, the offsets and the sleep stay.
        Clocks that are asleep aren't brought forward to `reading`, which may then be behind. All
        later readings are of the new counter. A Snapshot keeps its own.

        Raises, in this order: Full, Invalid if `first` or `reading` is above the greatest reading
        of its counter, Behind, and Range, also if MONOTONIC_RAW would be too far ahead of MONOTONIC
        for the new counter.
        """
        readings, firsts = (0, self.counter.max_reading), (0, counter.max_reading)
        code = CALLS.tkc_clock_change_counter(
            byref(self._value), fit(reading, U64, Invalid, "reading", readings),
            byref(counter._value), fit(first, U64, Invalid, "first", firsts))
        if code == Invalid.code:
            fit(first, firsts, Invalid, "first")
        if code:
            self._refuse_reading(code, reading)
            raise BY_CODE[code]("the change of counter is refused")
        self.counter = counter

    def _call_apply(self, reading: int, command: int, number: int, nsec: int) -> int:
        code: int = CALLS.tkc_clock_apply(byref(self._value), reading, command, number, nsec)
        return code

    def __repr__(self) -> str:
        words, frequency, tick = self.words()
        return f"Clock.from_words({self.counter!r}, {words!r}, {frequency}, {tick})"

    def __reduce__(self) -> Any:
        return Clock.from_words, (self.counter, *self.words())
