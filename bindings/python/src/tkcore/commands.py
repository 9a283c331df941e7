# SPDX-License-Identifier: MIT OR Apache-2.0
"""The commands that clocks accept."""
from __future__ import annotations

import enum
from typing import NoReturn, Tuple

from ._library import I64, NANOS, U32, U64, fit
from .counter import Counter
from .errors import BY_CODE, BadCommand, Behind, Full, Invalid
from .snapshot import SETTABLE, ClockId, Snapshot

_NSECS = (0, NANOS - 1)
TICKS = (9_000, 11_000)
_TAI_OFFSETS = (0, 100_000)


class Command(enum.IntEnum):
    """The commands, with their numbers in tkcore.h."""

    UPDATE = 0
    SET_TIME = 1
    STEP = 2
    FREQ = 3
    TICK = 4
    TAI_OFFSET = 5
    SUSPEND = 6
    RESUME = 7
    LEAP = 8


# The ranges of a command's number and of its nanoseconds, or of its TAI offset.
_NUMBERS = {
    Command.SET_TIME: (SETTABLE, _NSECS), Command.STEP: (I64, _NSECS), Command.FREQ: (I64, U32),
    Command.TICK: (TICKS, U32), Command.TAI_OFFSET: (_TAI_OFFSETS, U32),
    Command.RESUME: ((0, 9_223_372_035), _NSECS), Command.LEAP: ((-1, 1), _TAI_OFFSETS),
}


class Commanded:
    """Clocks that accept commands: those of `Clock` and of `SteeredClock`."""

    __slots__ = ()

    counter: Counter

    def _call_apply(self, reading: int, command: int, number: int, nsec: int) -> int:
        """Calls the library. Returns its code."""
        raise NotImplementedError

    def snapshot(self) -> Snapshot:
        """Returns a snapshot of the clocks, for reads."""
        raise NotImplementedError

    def _front_and_last(self) -> Tuple[int, int]:
        """Returns the front, and the reading of the last command."""
        front, last = self.snapshot().words()[:2]
        return front, last

    def apply(self, reading: int, command: int, number: int = 0, nsec: int = 0) -> None:
        """Applies a command at a reading of 0 to 2^bits - 1 cycles, with the arguments that
        tkcore.h documents.

        Raises, in this order: BadCommand, Full, Asleep or Awake, Invalid for a number that is out
        of its range, Behind, Range, and Invalid for a time that REALTIME may not be set to. A
        SteeredClock first raises what its `advance` does, unless the command is RESUME, or a TICK
        that is out of its range, and then Full.
        """
        readings = (0, self.counter.max_reading)
        what, nsecs = ("tai", _TAI_OFFSETS) if command == Command.LEAP else ("nsec", _NSECS)
        code = self._call_apply(
            fit(reading, U64, Invalid, "reading", readings),
            fit(command, U32, BadCommand, "command", (0, 8)),
            fit(number, I64, Invalid, "number"), fit(nsec, U32, Invalid, what, nsecs))
        if code:
            self._refuse(code, reading, command, number, nsec)

    def update(self, reading: int) -> None:
        """Only brings the clocks forward to the reading. Raises what `apply` does."""
        self.apply(reading, Command.UPDATE)

    def set_time(self, reading: int, time: int) -> None:
        """Sets REALTIME to a time in ns since 1970, below 8277292036 s and not below MONOTONIC.

        Raises what `apply` does.
        """
        self.apply(reading, Command.SET_TIME, *split(time, SETTABLE, "time"))

    def step(self, reading: int, amount: int) -> None:
        """Moves REALTIME by an amount in ns, which may be negative. The result must be in the range
        of `set_time`.

        Raises what `apply` does.
        """
        self.apply(reading, Command.STEP, *split(amount, I64, "amount"))

    def set_frequency(self, reading: int, frequency: int) -> None:
        """Sets the frequency, in 2^-16 ppm: 65536 is one part in a million. A frequency beyond 500
        ppm takes effect as that limit.

        Raises what `apply` does.
        """
        self.apply(reading, Command.FREQ, frequency)

    def set_tick(self, reading: int, tick: int) -> None:
        """Sets the tick, 9000 to 11000 us. Raises what `apply` does."""
        self.apply(reading, Command.TICK, tick)

    def set_tai_offset(self, reading: int, offset: int) -> None:
        """Sets TAI minus REALTIME, 0 to 100000 s. Raises what `apply` does."""
        self.apply(reading, Command.TAI_OFFSET, offset)

    def leap(self, reading: int, by: int, tai: int) -> None:
        """Makes a leap second: moves REALTIME by -1 or 1 s, and sets TAI minus REALTIME, 0 to
        100000 s. -1 inserts a second. Raises what `apply` does.
        """
        self.apply(reading, Command.LEAP, by, tai)

    def suspend(self, reading: int) -> None:
        """Puts the clocks to sleep: none moves until `resume`. Raises what `apply` does."""
        self.apply(reading, Command.SUSPEND)

    def resume(self, reading: int, slept: int) -> None:
        """Wakes the clocks, which count again starting at the reading. BOOTTIME, REALTIME and TAI
        advance by the suspension, 0 s to below 9223372036 s, in ns.

        Raises what `apply` does, except for Behind.
        """
        self.apply(reading, Command.RESUME, *split(slept, _NUMBERS[Command.RESUME][0], "slept"))

    def _first_reading(self, last: int) -> int:
        """Returns the first reading that isn't behind, starting at the last command's."""
        return last

    def _greatest_front(self, _front: int) -> int:
        """Returns the greatest front that leaves room for the command that this front doesn't."""
        return 2**63 - 2

    def _refuse_reading(self, code: int, reading: int) -> None:
        """Raises the exception of a code that is about the reading or the front."""
        front, last = self._front_and_last()
        mask = self.counter.max_reading
        if code == Full.code:
            raise Full("the number of accepted commands", front, (0, self._greatest_front(front)))
        if code == Invalid.code:
            fit(reading, (0, mask), Invalid, "reading")
        if code == Behind.code:
            within = (self._first_reading(last), (last + mask // 2) & mask)
            raise Behind("reading", reading, within)

    def _refuse(self, code: int, reading: int, command: int, number: int, nsec: int) -> NoReturn:
        """Raises the exception of a code, with the argument that it is for."""
        if code == BadCommand.code:
            raise BadCommand("command", command, (0, 8))
        self._refuse_reading(code, reading)
        if code == Invalid.code:
            within, nsecs = _NUMBERS.get(Command(command), (I64, U32))
            fit(number, within, Invalid, "number")
            fit(nsec, nsecs, Invalid, "tai" if command == Command.LEAP else "nsec")
            if command == Command.LEAP and number == 0:
                raise Invalid("the size of a leap second, in s,", 0, (1, 1))
            moves = command in (Command.STEP, Command.LEAP)
            time = number * NANOS + (0 if command == Command.LEAP else nsec)
            self._refuse_time(reading, time, moves)
        raise BY_CODE[code](f"{Command(command).name} is refused")

    def _refuse_time(self, reading: int, time: int, moves: bool) -> NoReturn:
        """Raises Invalid for a time, or an amount that moves REALTIME, in ns: REALTIME may be set
        neither below MONOTONIC at the reading nor to its limit."""
        snapshot = self.snapshot()
        if moves:
            raise Invalid("the step of REALTIME, in ns,", time, snapshot._steps(reading))
        within = (snapshot.get(reading, ClockId.MONOTONIC), SETTABLE[1] * NANOS + NANOS - 1)
        raise Invalid("REALTIME, in ns,", time, within)


def split(time: int, seconds: Tuple[int, int], what: str) -> Tuple[int, int]:
    """Returns a time in ns as seconds, which must be in a range, and nanoseconds."""
    within = (seconds[0] * NANOS, seconds[1] * NANOS + NANOS - 1)
    return divmod(fit(time, within, Invalid, what), NANOS)
