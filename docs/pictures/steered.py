#!/usr/bin/env python3
"""Writes the tables of the pictures in docs/NTP.md, from the definitions in tests/model/steered_clock.py.

    docs/pictures/steered.py FOLDER

FOLDER/offset.csv is what is left of an offset of 100 ms over an hour, at three time constants.
FOLDER/leap.csv has REALTIME and TAI around a second that is inserted.
"""
import csv
import pathlib
import sys

sys.path.insert(0, str(pathlib.Path(__file__).resolve().parents[2] / "tests/model"))

from model import NANOS, from_hz
from ntp import MAXERROR, NANO, OFFSET, STA_INS, STA_PLL, STATUS, TAI, TIMECONST, Timex
from steered_clock import Steered

HZ = 250
BEHIND = NANOS // 10  # ns
CONSTANTS = 2, 6, 10
MIDNIGHT = 1_483_228_800  # s since 1970: a second was inserted before it
TAI_OFFSET = 36  # s, before that


def opened(real):
    """Returns steered clocks of a counter of 1 GHz at reading 0: a cycle lasts a nanosecond."""
    return Steered(from_hz(64, NANOS, 600), 0, real, HZ)


def offsets(constant, times):
    """Returns what is left of the offset at these times, in ms. The times are in seconds."""
    start = 1_700_000_000 * NANOS
    clocks = opened(start - BEHIND)
    clocks.adjtimex(0, Timex(OFFSET | MAXERROR | STATUS | TIMECONST | NANO, offset=BEHIND, status=STA_PLL,
                             constant=constant))
    left = []
    for time in times:
        reading = time * NANOS
        clocks.advance(reading)
        left.append((start + reading - clocks.clock.value("realtime", reading)) / 1e6)
    return left


def offset_table():
    times = list(range(0, 120, 2)) + list(range(120, 3_601, 20))
    columns = [offsets(constant, times) for constant in CONSTANTS]
    yield "minutes", *(f"time constant {constant}" for constant in CONSTANTS)
    for time, *left in zip(times, *columns):
        yield f"{time / 60:.4f}", *(f"{value:.4f}" for value in left)


def leap_table():
    """Yields REALTIME and TAI minus midnight, in seconds. TAI is drawn without its offset before the leap."""
    clocks = opened((MIDNIGHT - 3) * NANOS)
    clocks.adjtimex(0, Timex(MAXERROR | STATUS | TAI, status=STA_INS, constant=TAI_OFFSET))
    leap = 3 * NANOS
    yield "seconds before and after the leap", "REALTIME", f"TAI minus {TAI_OFFSET} s"
    for reading in [0, leap - 1, leap, 6 * NANOS]:
        clocks.advance(reading)
        if reading == leap:
            yield "0", "", "0"
        real, tai = (clocks.clock.value(clock, reading) - MIDNIGHT * NANOS for clock in ("realtime", "tai"))
        yield (f"{(reading - leap) / NANOS:.9f}", f"{real / NANOS:.9f}", f"{tai / NANOS - TAI_OFFSET:.9f}")


def main():
    folder = pathlib.Path(sys.argv[1])
    for name, table in [("offset", offset_table()), ("leap", leap_table())]:
        with open(folder / f"{name}.csv", "w", newline="") as file:
            csv.writer(file, lineterminator="\n").writerows(table)


if __name__ == "__main__":
    main()
