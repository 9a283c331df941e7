# SPDX-License-Identifier: MIT OR Apache-2.0
"""A snapshot of the clocks, which converts readings into times."""
from __future__ import annotations

import enum
import sys
from array import array
from ctypes import byref, c_size_t, c_uint64
from typing import TYPE_CHECKING, Any, Iterable, Optional, Tuple, Union

from ._buffers import check_apart, numbers
from ._library import (CALLS, I64, NANOS, U32, U64, WORDS, SnapshotValue, TimeValue, Words, fit,
                       integer, raise_code)
from .counter import Counter
from .errors import BY_CODE, BadClock, BadRoom, BadWords, Behind, Invalid, Range

if TYPE_CHECKING:
    import numpy

    Array = numpy.ndarray[Any, Any]
    Stamps = Union["array[int]", memoryview, Array, Any]


SETTABLE = (0, 8_277_292_035)


class ClockId(enum.IntEnum):
    """The clocks, with the numbers of clock_gettime(2)."""

    REALTIME = 0
    MONOTONIC = 1
    MONOTONIC_RAW = 4
    REALTIME_COARSE = 5
    MONOTONIC_COARSE = 6
    BOOTTIME = 7
    TAI = 11


class Snapshot:
    """The clocks as one command left them, for readers. It never changes, so threads may share it.

    `Clock.snapshot` makes one, and `Snapshot.from_words` restores one. At a reading after the next
    accepted command it may give a later time than the next snapshot gives.
    """

    __slots__ = ("_value", "counter")

    _value: SnapshotValue
    counter: Counter

    def __init__(self) -> None:
        raise TypeError("Clock.snapshot and Snapshot.from_words make snapshots")

    @classmethod
    def _of_value(cls, value: SnapshotValue, counter: Counter) -> Snapshot:
        snapshot = cls.__new__(cls)
        snapshot._value, snapshot.counter = value, counter
        return snapshot

    @classmethod
    def from_words(cls, counter: Counter, words: Iterable[int]) -> Snapshot:
        """Returns the snapshot of a counter that ten numbers of 64 bits represent (tkcore.h,
        tkc_snapshot_words).

        Raises BadWords if they represent none.
        """
        value = SnapshotValue()
        code = CALLS.tkc_snapshot_from_words(byref(value), byref(counter._value), words_of(words))
        raise_code(code, "the words represent no snapshot of this counter")
        return cls._of_value(value, counter)

    def words(self) -> Tuple[int, ...]:
        """Returns the ten numbers that represent the snapshot: for files, and other processes."""
        words = Words()
        CALLS.tkc_snapshot_words(words, byref(self._value))
        return tuple(words)

    @property
    def front(self) -> int:
        """The number of commands that the clocks had accepted."""
        front: int = CALLS.tkc_snapshot_front(byref(self._value))
        return front

    @property
    def tai_offset(self) -> int:
        """TAI minus REALTIME, in s."""
        offset: int = CALLS.tkc_snapshot_tai(byref(self._value))
        return offset

    @property
    def is_asleep(self) -> bool:
        """Whether the clocks are asleep: none moves until `Clock.resume`."""
        return bool(CALLS.tkc_snapshot_asleep(byref(self._value)))

    def get(self, reading: int, clock: int) -> int:
        """Returns a clock's time at a reading, in ns.

        The reading is 0 to 2^bits - 1 cycles. At a reading behind the last command, and while the
        clocks are asleep, the result is the clock's time at the last command.

        Raises BadClock; Invalid if the reading is out of its range; Range if the clock is at or
        past its limit.
        """
        time = TimeValue()
        reading = fit(reading, U64, Invalid, "reading", (0, self.counter.max_reading))
        code = CALLS.tkc_snapshot_get(byref(time), byref(self._value),
                                      fit(clock, U32, BadClock, "clock"), reading)
        if code:
            raise self._refused(code, clock, reading, "reading")
        nanos: int = time.sec * NANOS + time.nsec
        return nanos

    def coarse(self, clock: int) -> int:
        """Returns a clock's time at the last command, in ns, without a reading of the counter.

        Raises BadClock.
        """
        time = TimeValue()
        code = CALLS.tkc_snapshot_coarse(byref(time), byref(self._value),
                                         fit(clock, U32, BadClock, "clock"))
        raise_code(code, "clock", clock)
        nanos: int = time.sec * NANOS + time.nsec
        return nanos

    def stepped(self, reading: int, amount: int) -> Tuple[int, int]:
        """Returns REALTIME at a reading, in ns, without and with a step by an amount in ns, which
        may be negative. Makes no step.

        Raises what `Clock.step` raises for this reading and this amount, except for Full.
        """
        before, after = TimeValue(), TimeValue()
        reading = fit(reading, U64, Invalid, "reading", (0, self.counter.max_reading))
        within = (I64[0] * NANOS, I64[1] * NANOS + NANOS - 1)
        sec, nsec = divmod(fit(amount, within, Invalid, "amount"), NANOS)
        code = CALLS.tkc_snapshot_step(byref(before), byref(after), byref(self._value), reading,
                                       sec, nsec)
        if code:
            raise self._unstepped(code, reading, amount)
        return before.sec * NANOS + before.nsec, after.sec * NANOS + after.nsec

    def _unstepped(self, code: int, reading: int, amount: int) -> Exception:
        """Returns the exception of a refused step."""
        last, mask = self.words()[1], self.counter.max_reading
        if code == Invalid.code and reading > mask:
            return Invalid("reading", reading, (0, mask))
        if code == Behind.code:
            return Behind("reading", reading, (last, (last + mask // 2) & mask))
        if code == Invalid.code:
            return Invalid("the step of REALTIME, in ns,", amount, self._steps(reading))
        return BY_CODE[code]("STEP is refused")

    def _steps(self, reading: int) -> Tuple[int, int]:
        """Returns the least and the greatest amount, in ns, by which REALTIME may be stepped at a
        reading: to MONOTONIC, and to the last time that may be set."""
        ahead = self.words()[5]  # REALTIME minus MONOTONIC, in ns
        real = self.get(reading, ClockId.MONOTONIC) + ahead
        return -ahead, SETTABLE[1] * NANOS + NANOS - 1 - real

    def get_datetime64(self, reading: int, clock: int) -> numpy.datetime64:
        """Returns a clock's time at a reading as numpy's datetime64[ns]. It raises what `get` does.

        The time is counted from 1970 for REALTIME and TAI, and from the opening for other clocks.
        """
        import numpy
        return numpy.datetime64(self.get(reading, clock), "ns")

    def reading_at(self, time: int, clock: int) -> int:
        """Returns the first reading at which a clock has reached a time, in ns, of the last
        command's reading and the (2^bits - 1) / 2 readings after it.

        Raises BadClock, and then Further or Never if the clock reaches the time at none of them.
        """
        reading = c_uint64()
        clock = fit(clock, U32, BadClock, "clock")
        time = integer(time, "time")
        # (all clocks have reached a time below C's range, and none reaches one above it)
        sec, nsec = divmod(max(I64[0] * NANOS, min(time, I64[1] * NANOS + NANOS - 1)), NANOS)
        code = CALLS.tkc_snapshot_reading(byref(reading), byref(self._value), clock, sec, nsec)
        raise_code(code, *(("clock", clock) if code == BadClock.code else ("time", time)))
        return reading.value

    def convert(self, stamps: Stamps, clock: int, out: Optional[Any] = None) -> Any:
        """Converts each stamp into a clock's time, in ns. Returns the times.

        `stamps` is any contiguous buffer of unsigned 64-bit numbers: a numpy array of uint64, an
        array("Q"), a memoryview. It isn't copied. The times go into the first elements of `out`, a
        buffer of the same type that doesn't overlap `stamps`. Without it, the result is a new array
        of numpy for one of numpy, and otherwise a new array("Q"), which Python first fills with 0.
        Other threads run during the call; they must not write the stamps.

        Raises BadClock; BadBuffer; BadRoom if `out` has fewer elements; and Invalid or Range at the
        first stamp for which `get` would. That exception's `done` counts the stamps before it,
        whose times are in `out`.
        """
        clock = fit(clock, U32, BadClock, "clock")
        with numbers(stamps, "stamps", False) as source:
            count = source.size // 8
            if out is None:
                out = self._room_for(stamps, count)
            with numbers(out, "out", True) as target:
                check_apart(source, target)
                done = c_size_t()
                code = CALLS.tkc_snapshot_convert(target.address, target.size // 8, byref(done),
                                                  byref(self._value), clock, source.address, count)
                if code == BadRoom.code:
                    raise BadRoom("the number of elements of out", target.size // 8,
                                  (count, U64[1]))
                if code:
                    stamp = source.view.cast("B").cast("Q")[done.value] if count else None
                    raise self._refused(code, clock, stamp, "stamp", done.value)
        return out

    def convert_datetime64(self, stamps: Stamps, clock: int,
                           out: Optional[Array] = None) -> Array:
        """Converts each stamp into a clock's time, as `convert` does, into numpy's datetime64[ns].

        `out` is an array of datetime64[ns] or of uint64. The result shares its memory.
        """
        import numpy
        if out is None:
            out = numpy.empty(numpy.shape(stamps), numpy.uint64)
        out = out.view(numpy.uint64)
        times: Array = self.convert(stamps, clock, out).view("datetime64[ns]")
        return times

    @staticmethod
    def _room_for(stamps: Any, count: int) -> Any:
        numpy = sys.modules.get("numpy")
        if numpy is not None and isinstance(stamps, numpy.ndarray):
            return numpy.empty(stamps.shape, numpy.uint64)
        return array("Q", [0]) * count

    def _refused(self, code: int, clock: int, reading: Optional[int], what: str,
                 done: Optional[int] = None) -> Exception:
        """Returns the exception of a code, with the argument that it is for."""
        if code == BadClock.code:
            return BadClock("clock", int(clock))
        if code == Invalid.code:
            error = BY_CODE[code](what, reading, (0, self.counter.max_reading))
        else:
            error = BY_CODE[code](f"{ClockId(clock).name} is at its limit, and the {what}", reading)
        if done is not None and isinstance(error, (Invalid, Range)):
            error.done = done
        return error

    def __eq__(self, other: object) -> bool:
        if not isinstance(other, Snapshot):
            return NotImplemented
        return self.counter == other.counter and self.words() == other.words()

    def __hash__(self) -> int:
        return hash((self.counter, self.words()))

    def __repr__(self) -> str:
        return f"Snapshot.from_words({self.counter!r}, {self.words()!r})"

    def __reduce__(self) -> Any:
        return Snapshot.from_words, (self.counter, self.words())


def words_of(words: Iterable[int], kind: Any = Words) -> Any:
    """Returns the numbers as an array of C of this type."""
    found, count = tuple(words), kind._length_
    if len(found) != count:
        raise BadWords("the number of words", len(found), (count, count))
    return kind(*(fit(word, U64, BadWords, f"word {place}") for place, word in enumerate(found)))
