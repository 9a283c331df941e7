# SPDX-License-Identifier: MIT OR Apache-2.0
"""The description of a counter."""
from __future__ import annotations

from ctypes import byref, c_uint32
from typing import Any, Tuple

from ._library import CALLS, U32, U64, CounterValue, SnapshotValue, fit
from .errors import BY_CODE, BadBits, BadMult, BadRate, BadShift, Invalid

_BITS, _SHIFTS, _MULTS = (8, 64), (0, 32), (256, 3_869_339_906)
_RATES, _FINEST_RATES, _SPANS = (1, 2**32 - 1), (1, 10**12), (1, 600)


class Counter:
    """A cycle counter: a reading has `bits` bits, and a cycle lasts mult / 2^shift ns.

    `bits` is 8 to 64, `shift` 0 to 32, and `mult` 256 to 3869339906.

    Raises BadBits, BadShift, BadMult or BadAdjust, tested in this order, with the number that is
    out of its range.
    """

    __slots__ = ("_value", "bits", "mult", "shift")

    bits: int
    mult: int
    shift: int

    def __init__(self, bits: int, mult: int, shift: int) -> None:
        value = CounterValue()
        bits = fit(bits, U32, BadBits, "bits", _BITS)
        shift = fit(shift, U32, BadShift, "shift", _SHIFTS)
        mult = fit(mult, U32, BadMult, "mult", _MULTS)
        code = CALLS.tkc_counter_new(byref(value), bits, mult, shift)
        if code:
            what = {32: ("bits", bits, _BITS), 33: ("shift", shift, _SHIFTS)}
            raise BY_CODE[code](*what.get(code, ("mult", mult, _MULTS)))
        self._set(value)

    def _set(self, value: CounterValue) -> None:
        numbers = [c_uint32(), c_uint32(), c_uint32()]
        CALLS.tkc_counter_numbers(*map(byref, numbers), byref(value))
        self._value = value
        self.bits, self.mult, self.shift = (number.value for number in numbers)

    @classmethod
    def _of_value(cls, value: CounterValue) -> Counter:
        counter = cls.__new__(cls)
        counter._set(value)
        return counter

    @classmethod
    def _of_snapshot(cls, snapshot: SnapshotValue) -> Counter:
        value = CounterValue()
        CALLS.tkc_snapshot_counter(byref(value), byref(snapshot))
        return cls._of_value(value)

    @classmethod
    def _from_rate(cls, call: Any, bits: int, rate: int, maxsec: int, what: str,
                   rates: Tuple[int, int] = _RATES) -> Counter:
        value = CounterValue()
        bits = fit(bits, U32, BadBits, "bits", _BITS)
        rate = fit(rate, U64, BadRate, what, rates)
        maxsec = fit(maxsec, U32, BadRate, "maxsec", _SPANS)
        code = call(byref(value), bits, rate, maxsec)
        if code == BadBits.code:
            raise BadBits("bits", bits, _BITS)
        if code:
            fit(rate, rates, BadRate, what)
            raise BY_CODE[code]("maxsec", maxsec, _SPANS)
        return cls._of_value(value)

    @classmethod
    def from_hz(cls, bits: int, hz: int, maxsec: int = 600) -> Counter:
        """Returns the counter that runs at `hz` cycles a second, 1 to 2^32 - 1, with readings of 8
        to 64 bits, for gaps of up to `maxsec` seconds, 1 to 600.

        A smaller `maxsec` gives a finer mult (docs/C.md, "Choosing maxsec").

        Raises BadBits, and then BadRate, with the number that is out of its range.
        """
        return cls._from_rate(CALLS.tkc_counter_from_hz, bits, hz, maxsec, "hz")

    @classmethod
    def from_khz(cls, bits: int, khz: int, maxsec: int = 600) -> Counter:
        """Returns the counter that runs at `khz` cycles a millisecond, 1 to 2^32 - 1, as `from_hz`
        does. Call it for a counter above 4.29 GHz, or if only the kHz are known.

        Raises BadBits, and then BadRate, with the number that is out of its range.
        """
        return cls._from_rate(CALLS.tkc_counter_from_khz, bits, khz, maxsec, "khz")

    @classmethod
    def finest(cls, bits: int, hz: int, maxsec: int = 600) -> Counter:
        """Returns the counter that runs at `hz` cycles a second, 1 to 10^12, with readings of 8 to
        64 bits, and with the finest mult for gaps of up to `maxsec` seconds, 1 to 600: the greatest
        shift at which such gaps convert with products of 64 bits.

        Raises BadBits, and then BadRate, with the number that is out of its range.
        """
        return cls._from_rate(CALLS.tkc_counter_finest, bits, hz, maxsec, "hz", _FINEST_RATES)

    @property
    def max_reading(self) -> int:
        """The greatest reading, 2^bits - 1 cycles."""
        return (1 << self.bits) - 1

    def gap(self, start: int, end: int) -> int:
        """Returns the cycles from one reading to a later one, modulo 2^bits. Bits of the readings
        above the counter's don't count.

        Raises Invalid if a reading isn't 0 to 2^64 - 1.
        """
        gap: int = CALLS.tkc_counter_gap(byref(self._value), fit(start, U64, Invalid, "start"),
                                         fit(end, U64, Invalid, "end"))
        return gap

    def nanos(self, cycles: int) -> int:
        """Returns the nanoseconds of a number of cycles at the counter's own rate, rounded down:
        cycles * mult / 2^shift, or 2^64 - 1 if they are more.

        Raises Invalid if `cycles` isn't 0 to 2^64 - 1.
        """
        nanos: int = CALLS.tkc_counter_nanos(byref(self._value),
                                             fit(cycles, U64, Invalid, "cycles"))
        return nanos

    def __eq__(self, other: object) -> bool:
        if not isinstance(other, Counter):
            return NotImplemented
        return self._numbers() == other._numbers()

    def __hash__(self) -> int:
        return hash(self._numbers())

    def __repr__(self) -> str:
        return f"Counter(bits={self.bits}, mult={self.mult}, shift={self.shift})"

    def __reduce__(self) -> Any:
        return Counter, self._numbers()

    def _numbers(self) -> Tuple[int, int, int]:
        return self.bits, self.mult, self.shift
