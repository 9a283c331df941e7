# SPDX-License-Identifier: MIT OR Apache-2.0
"""Clocks that a discipline steers, as the kernel's are by adjtimex(2)."""
from __future__ import annotations

import enum
from ctypes import byref, c_uint32, c_uint64
from dataclasses import dataclass
from typing import Any, Iterable, NoReturn, Optional, Tuple

from ._library import (CALLS, I64, NANOS, U32, U64, NtpSavedWords, NtpValue, SnapshotValue,
                       TimexValue, fit, raise_code)
from .clock import raise_opening, split_uptime
from .commands import TICKS, Commanded, split
from .counter import Counter
from .errors import BY_CODE, Behind, Full, Invalid
from .snapshot import SETTABLE, Snapshot, words_of


class Mode(enum.IntFlag):
    """The bits of `Timex.modes`, with their numbers in adjtimex(2)."""

    OFFSET = 0x0001
    FREQUENCY = 0x0002
    MAXERROR = 0x0004
    ESTERROR = 0x0008
    STATUS = 0x0010
    TIMECONST = 0x0020
    TAI = 0x0080
    SETOFFSET = 0x0100
    MICRO = 0x1000
    NANO = 0x2000
    TICK = 0x4000
    ADJTIME = 0x8000


class Status(enum.IntFlag):
    """The bits of `Timex.status`, with their numbers in adjtimex(2)."""

    PLL = 0x0001
    FLL = 0x0008
    INS = 0x0010
    DEL = 0x0020
    UNSYNC = 0x0040
    FREQHOLD = 0x0080
    CLOCKERR = 0x1000
    NANO = 0x2000
    MODE = 0x4000


class TimeState(enum.IntEnum):
    """The states of a steered clock: the results of adjtimex(2)."""

    OK = 0
    INS = 1
    DEL = 2
    OOP = 3
    WAIT = 4
    ERROR = 5


@dataclass(frozen=True)
class Timex:
    """A request to steer clocks, or the fields of its reply, as in adjtimex(2).

    `modes` says which of the other fields of a request are given. `offset`, and `sub`, the part of
    a second after `sec`, are in ns or in us. `freq` is in 2^-16 ppm; `maxerror`, `esterror` and
    `tick` are in us. `constant` is the time constant, or the TAI offset in s. A request's time is
    the step of Mode.SETOFFSET, a reply's is REALTIME.
    """

    modes: int = 0
    offset: int = 0
    freq: int = 0
    maxerror: int = 0
    esterror: int = 0
    status: int = 0
    constant: int = 0
    tick: int = 0
    sec: int = 0
    sub: int = 0


@dataclass(frozen=True)
class Reply:
    """The reply to a request: the clock's state, TAI minus REALTIME in s, and the other fields."""

    state: TimeState
    tai: int
    timex: Timex


_WORDS = ("modes", "status")
_NUMBERS = ("offset", "freq", "maxerror", "esterror", "constant", "tick", "sec", "sub")
_FREQS = (-140_737_488_355, 140_737_488_355)  # whose products with the kernel's PPM_SCALE are int64


def _check_request(request: Timex) -> None:
    """Raises Invalid for the first field that makes a request faulty, in the order of
    timekeeping_validate_timex in the kernel's kernel/time/timekeeping.c."""
    modes = request.modes
    if modes & Mode.ADJTIME:
        wanted = int(modes) | int(Mode.OFFSET)
        fit(modes, (wanted, wanted), Invalid, "modes, with ADJTIME,")
    elif modes & Mode.TICK:
        fit(request.tick, TICKS, Invalid, "tick")
    if modes & Mode.SETOFFSET:
        fit(request.sub, (0, (NANOS if modes & Mode.NANO else 10**6) - 1), Invalid, "sub")
    if modes & Mode.FREQUENCY:
        fit(request.freq, _FREQS, Invalid, "freq")


def _snapshot_of(value: NtpValue) -> SnapshotValue:
    snapshot = SnapshotValue()
    CALLS.tkc_ntp_snapshot(byref(snapshot), byref(value))
    return snapshot


class SteeredClock(Commanded):
    """The running clocks of a counter, opened at a reading with REALTIME at `realtime` ns since
    1970, and steered by a fresh discipline. MONOTONIC, MONOTONIC_RAW and BOOTTIME are `uptime` ns
    there, 0 if it isn't given.

    Phases are divided into `hz` parts of a second, 1 to 1024: with the kernel's HZ, replies are the
    kernel's to the last digit. Every call with a reading, except `resume`, first lets the seconds
    of REALTIME up to this reading begin, each at its own reading, with its leap second and its
    rate. A refused command or step leaves clocks that have only advanced. FREQ and TICK are
    requests to the discipline. The front of a snapshot counts each command that the clocks accept,
    those of the discipline too. `update` the clocks at least once in each half of the counter's
    range. If others read snapshots meanwhile, call `advance_late` first, at the same reading.

    Don't let two threads use one SteeredClock without a lock. A Snapshot may be shared.

    Raises, in this order: Invalid if the reading, `realtime` or a negative `uptime` is out of its
    range; Range if `uptime` is at the limit of MONOTONIC or past it; Invalid if `realtime` is below
    `uptime` or `hz` is out of its range.
    """

    __slots__ = ("_value", "counter")

    counter: Counter

    def __init__(self, counter: Counter, reading: int, realtime: int, hz: int = 250,
                 uptime: int = 0) -> None:
        value = NtpValue()
        reading = fit(reading, U64, Invalid, "reading", (0, counter.max_reading))
        real, past = split(realtime, SETTABLE, "realtime"), split_uptime(uptime)
        parts = fit(min(max(hz, 0), 1025), (0, 1025), Invalid, "hz")
        code = CALLS.tkc_ntp_open_at(byref(value), byref(counter._value), reading, *real, *past,
                                     parts)
        if code == Invalid.code and reading <= counter.max_reading and realtime >= uptime:
            fit(hz, (1, 1024), Invalid, "hz")
        raise_opening(code, counter, reading, realtime, uptime)
        self._value, self.counter = value, counter

    @classmethod
    def load(cls, words: Iterable[int]) -> SteeredClock:
        """Returns the steered clocks that the result of `save` represents.

        Raises BadWords if no steered clocks of any counter have these words.
        """
        value = NtpValue()
        code = CALLS.tkc_ntp_load(byref(value), words_of(words, NtpSavedWords))
        raise_code(code, "the words represent no steered clocks")
        return cls._of_value(value, Counter._of_snapshot(_snapshot_of(value)))

    @classmethod
    def _of_value(cls, value: NtpValue, counter: Counter) -> SteeredClock:
        clock = cls.__new__(cls)
        clock._value, clock.counter = value, counter
        return clock

    def save(self) -> Tuple[int, ...]:
        """Returns the 33 numbers that represent the steered clocks with their counter, as
        `tkc_ntp_save` of tkcore.h lists them; negative numbers are modulo 2^64."""
        words = NtpSavedWords()
        CALLS.tkc_ntp_save(words, byref(self._value))
        return tuple(words)

    def advance(self, reading: int) -> None:
        """Lets each second of REALTIME up to a reading begin.

        Raises, in this order: Asleep; Invalid; Behind, if the reading is behind the last command's;
        Range; Behind, if it is behind the beginning of the present second or the last request with
        modes. Nothing has changed then. Raises Full if the front is above 2^63 - 4 where a second
        is due: the seconds before it have begun.
        """
        code = CALLS.tkc_ntp_advance(byref(self._value), self._reading(reading))
        if code:
            self._refuse_call(code, reading)

    def advance_late(self, reading: int) -> None:
        """Lets each second of REALTIME up to a reading begin, with all commands of the clocks at
        this reading (`tkc_ntp_advance_late` of tkcore.h).

        So MONOTONIC doesn't go back for reads up to the reading that use a former snapshot. Raises
        what `advance` raises.
        """
        code = CALLS.tkc_ntp_advance_late(byref(self._value), self._reading(reading))
        if code:
            self._refuse_call(code, reading)

    def change_counter(self, reading: int, counter: Counter, first: int) -> None:
        """Advances, and lets the clocks go on over another counter, starting at its reading
        `first`. `reading` is a reading of the present counter; take both at the same moment.

        Every clock keeps its time. The discipline stays, and what the clocks lag behind is carried
        over. While the clocks are asleep, no second begins, they aren't brought forward to
        `reading`, which may then be behind, and they stay asleep. All later readings are of the new
        counter. A Snapshot keeps its own. The change adds 1 to the front.

        Raises, in this order: Invalid if `first` is above the greatest reading of `counter`; what
        `advance` raises, or, while the clocks are asleep, only Invalid for `reading`. Nothing has
        changed then, except at Full. Raises Full if the front is 2^63 - 1 or more, and Range if
        MONOTONIC_RAW would be too far ahead of MONOTONIC for the new counter: the clocks have only
        advanced.
        """
        first = fit(first, (0, counter.max_reading), Invalid, "first")
        code = CALLS.tkc_ntp_change_counter(byref(self._value), self._reading(reading),
                                            byref(counter._value), first)
        if code == Full.code:
            self._refuse_change(reading)
        if code:
            self._refuse_reading(code, reading)
            raise BY_CODE[code]("the change of counter is refused")
        self.counter = counter

    def adjtimex(self, reading: int, request: Timex) -> Reply:
        """Does what a request asks for at a reading, and returns the reply (adjtimex(2)).

        Raises, in this order: Invalid for a request that is faulty; Asleep, Invalid, Behind or
        Range for the reading; Full, if the front is above 2^63 - 7 then; Invalid or Range for the
        step of Mode.SETOFFSET; Range for REALTIME or the TAI offset, after the step. Invalid has the number that is out of its range:
        of a field, of the reading, or of the step in ns.
        """
        timex, state = TimexValue(), c_uint32()
        for name in _WORDS:
            setattr(timex, name, fit(getattr(request, name), U32, Invalid, name))
        for name in _NUMBERS:
            setattr(timex, name, fit(getattr(request, name), I64, Invalid, name))
        code = CALLS.tkc_adjtimex(byref(timex), byref(state), byref(self._value),
                                  self._reading(reading))
        if code == Invalid.code:
            self._refuse_request(reading, request)
        if code:
            self._refuse_call(code, reading)
        fields = {name: getattr(timex, name) for name in _WORDS + _NUMBERS}
        return Reply(TimeState(state.value), timex.tai, Timex(**fields))

    def next_second(self) -> int:
        """Returns the reading at which the next second of REALTIME begins, to set a timer to.

        Raises Further or Never if REALTIME doesn't reach it within half of the counter's range.
        """
        reading = c_uint64()
        code = CALLS.tkc_ntp_next_second(byref(reading), byref(self._value))
        raise_code(code, "REALTIME doesn't reach the next second")
        return reading.value

    def coming_leap(self) -> Optional[Tuple[int, int]]:
        """Returns the second of REALTIME whose beginning is the coming leap second, in s since
        1970, and what REALTIME moves by there: -1 s if a second is inserted, 1 s if one is deleted.

        None means that no leap is coming: none is planned, its status bit was cleared, or a set, a
        step or a `resume` jumped over it. A leap is planned as the first second begins after its
        bit was set.
        """
        second = c_uint64()
        by = CALLS.tkc_ntp_leap(byref(second), byref(self._value))
        return (second.value, by) if by else None

    @property
    def status(self) -> Status:
        """The bits of the status: the field of a reply."""
        return Status(CALLS.tkc_ntp_status(byref(self._value)))

    @property
    def frequency(self) -> int:
        """The frequency of the discipline, in 2^-16 ppm: the field `freq` of a reply."""
        frequency: int = CALLS.tkc_ntp_frequency(byref(self._value))
        return frequency

    @property
    def tick(self) -> int:
        """The tick of the discipline, in us: the field of a reply."""
        tick: int = CALLS.tkc_ntp_tick_length(byref(self._value))
        return tick

    def snapshot(self) -> Snapshot:
        """Returns a snapshot of the clocks, for reads up to the beginning of the next second."""
        return Snapshot._of_value(_snapshot_of(self._value), self.counter)

    def _reading(self, reading: int) -> int:
        return fit(reading, U64, Invalid, "reading", (0, self.counter.max_reading))

    def _refuse_request(self, reading: int, request: Timex) -> NoReturn:
        """Raises Invalid for the first number that the library refused."""
        _check_request(request)
        fit(reading, (0, self.counter.max_reading), Invalid, "reading")
        sub = request.sub if request.modes & Mode.NANO else 1000 * request.sub
        self._refuse_time(reading, request.sec * NANOS + sub, True)

    def _refuse_change(self, reading: int) -> NoReturn:
        """Raises Full: a second that is due needs room for 3 commands, and a change for 1."""
        front, _ = self._front_and_last()
        value = NtpValue.from_buffer_copy(self._value)
        is_due = CALLS.tkc_ntp_advance(byref(value), reading) == Full.code
        raise Full("the number of accepted commands", front, (0, 2**63 - (4 if is_due else 2)))

    def _refuse_call(self, code: int, reading: int) -> NoReturn:
        self._refuse_reading(code, reading)
        raise BY_CODE[code]("the request or the reading is refused")

    def _greatest_front(self, front: int) -> int:
        # (a second and a command need room for 3 commands below 2^63, a request for 6)
        return 2**63 - 4 if front > 2**63 - 4 else 2**63 - 7

    def _first_reading(self, last: int) -> int:
        mask = self.counter.max_reading

        def is_behind(gap: int) -> bool:
            value = NtpValue.from_buffer_copy(self._value)
            code: int = CALLS.tkc_ntp_advance(byref(value), (last + gap) & mask)
            return code == Behind.code

        behind, ahead = -1, 0
        while ahead < mask // 2 and is_behind(ahead):
            behind, ahead = ahead, min(2 * ahead + 1, mask // 2)
        while ahead - behind > 1:
            middle = (behind + ahead) // 2
            behind, ahead = (middle, ahead) if is_behind(middle) else (behind, middle)
        return (last + ahead) & mask

    def _call_apply(self, reading: int, command: int, number: int, nsec: int) -> int:
        code: int = CALLS.tkc_ntp_apply(byref(self._value), reading, command, number, nsec)
        return code

    def __copy__(self) -> SteeredClock:
        return SteeredClock._of_value(NtpValue.from_buffer_copy(self._value), self.counter)

    def __reduce__(self) -> Any:
        return SteeredClock.load, (self.save(),)

    def __repr__(self) -> str:
        return f"<SteeredClock of {self.counter!r}, {self.snapshot()!r}>"
