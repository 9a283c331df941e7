# SPDX-License-Identifier: MIT OR Apache-2.0
"""The snapshots that the commands of a script leave, for stamps of any time."""
from __future__ import annotations

import csv
from array import array
from bisect import bisect_left, bisect_right
from copy import copy
from operator import le
from typing import Any, Callable, Dict, Iterable, List, Optional, Tuple

from ._buffers import numbers
from ._library import NANOS
from .clock import Clock
from .counter import Counter
from .errors import BadBuffer, Error, Invalid
from .snapshot import Snapshot

# The method of each record of a command, and how its fields after the reading make the argument.
_COMMANDS: Dict[str, Tuple[Callable[..., Any], Callable[..., Any]]] = {
    "update": (Clock.update, lambda: ()),
    "suspend": (Clock.suspend, lambda: ()),
    "freq": (Clock.set_frequency, lambda value: (value,)),
    "tick": (Clock.set_tick, lambda value: (value,)),
    "tai": (Clock.set_tai_offset, lambda value: (value,)),
    "set": (Clock.set_time, lambda sec, nsec: (sec * NANOS + nsec,)),
    "step": (Clock.step, lambda sec, nsec: (sec * NANOS + nsec,)),
    "resume": (Clock.resume, lambda sec, nsec: (sec * NANOS + nsec,)),
}


class Journal:
    """The clocks of a counter at each command, so that a stamp is read by the last command before
    it. A command comes before a stamp if its reading is not after it.

    The readings must not go down, so a counter that wraps needs a journal for each turn. All stamps
    are readings of the last counter: a change of counter forgets the snapshots before it.
    """

    def __init__(self, clock: Clock, reading: int) -> None:
        """Begins with clocks that were opened at this reading."""
        self.clock = clock
        self.readings = array("Q", [reading])
        self.snapshots: List[Snapshot] = [clock.snapshot()]

    @classmethod
    def from_script(cls, lines: Iterable[str]) -> Journal:
        """Returns the journal of a script of tkcore (docs/TKCORE.md) that begins with `open` or
        `openhz`, without its `get` records.

        Raises ValueError at a record that is none, and the exception of numbers that describe no
        counter or of a refused command.
        """
        journal: Optional[Journal] = None
        for number, (word, *fields) in enumerate(filter(None, csv.reader(lines)), 1):
            try:
                values = [int(field) for field in fields if word != "get"]
                if journal is None:
                    journal = cls._opened(word, *values)
                elif word != "get":
                    journal._apply(word, *values)
            except Error:
                raise
            except (KeyError, TypeError, ValueError):
                raise ValueError(f"record {number} is no record of a script: {word}") from None
        if journal is None:
            raise ValueError("the script has no record")
        return journal

    @classmethod
    def _opened(cls, word: str, bits: int, rate: int, last: int, reading: int, sec: int,
                nsec: int) -> Journal:
        makers: Dict[str, Callable[[int, int, int], Counter]] = {
            "open": Counter, "openhz": Counter.from_hz}
        make = makers[word]
        return cls(Clock(make(bits, rate, last), reading, sec * NANOS + nsec), reading)

    def _apply(self, word: str, reading: int, *fields: int) -> None:
        if word == "counter":
            bits, mult, shift, first = fields
            self.change_counter(reading, Counter(bits, mult, shift), first)
            return
        call, arguments = _COMMANDS[word]
        self.add(reading, lambda: call(self.clock, reading, *arguments(*fields)))

    def add(self, reading: int, apply: Any) -> None:
        """Makes a call that applies a command to `clock` at a reading, and keeps its snapshot.

        Raises Invalid if the reading is below the last one, and what the call raises.
        """
        if reading < self.readings[-1]:
            raise Invalid("reading", reading, (self.readings[-1], self.clock.counter.max_reading))
        apply()
        self.readings.append(reading)
        self.snapshots.append(self.clock.snapshot())

    def change_counter(self, reading: int, counter: Counter, first: int) -> None:
        """Lets `clock` go on over another counter, as `Clock.change_counter` does. The journal
        begins anew at the reading `first`: all stamps are readings of its last counter.

        Raises what `Clock.change_counter` does.
        """
        self.clock.change_counter(reading, counter, first)
        self.readings = array("Q", [first])
        self.snapshots = [self.clock.snapshot()]

    def snapshot_at(self, reading: int) -> Snapshot:
        """Returns the snapshot for a reading. Raises Invalid if it is before the opening, or before
        the last change of counter."""
        front = bisect_right(self.readings, reading) - 1
        if front < 0:
            raise Invalid("reading", reading, (self.readings[0], self.clock.counter.max_reading))
        return self.snapshots[front]

    def get(self, reading: int, clock: int) -> int:
        """Returns a clock's time at a reading, in ns. Raises what `snapshot_at` and `Snapshot.get`
        do."""
        return self.snapshot_at(reading).get(reading, clock)

    def convert(self, stamps: Any, clock: int, out: Any) -> Any:
        """Converts stamps, which must not go down, into `out`, as `Snapshot.convert` does. Returns
        `out`.

        Raises ValueError if a stamp is below the one before it; Invalid if the first one is before
        the opening; and what `Snapshot.convert` does, whose `done` counts after the last command.
        """
        with numbers(stamps, "stamps", False) as source, numbers(out, "out", True) as target:
            given, times = source.view, target.view
            if given.ndim != 1 or times.ndim != 1:
                raise BadBuffer("the number of dimensions", max(given.ndim, times.ndim), (1, 1))
            _check_sorted(stamps, given)
            if len(given):
                self.snapshot_at(given[0])
            later = (bisect_left(given, reading) for reading in self.readings[1:])
            bounds = [0, *later, len(given)]
            for snapshot, start, end in zip(self.snapshots, bounds, bounds[1:]):
                if start < end:
                    snapshot.convert(given[start:end], clock, times[start:end])
        return out

    def __copy__(self) -> Journal:
        made = Journal.__new__(Journal)
        made.clock = copy(self.clock)
        made.readings, made.snapshots = self.readings[:], self.snapshots[:]
        return made


def _check_sorted(stamps: Any, view: memoryview) -> None:
    """Raises ValueError if a number is below the one before it."""
    if hasattr(stamps, "dtype"):
        is_sorted = bool((stamps[1:] >= stamps[:-1]).all())
    else:
        is_sorted = all(map(le, view, view[1:]))
    if not is_sorted:
        raise ValueError("a stamp is below the one before it")
