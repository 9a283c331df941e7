#!/usr/bin/env python3
# SPDX-License-Identifier: MIT OR Apache-2.0
"""Makes the files of a simulated fleet.

    make.py FOLDER MACHINES STAMPS [SEED]

For each machine, FOLDER contains three files:

- NAME.csv       the script of its clocks: a counter of 24 MHz, the steps and the frequencies that
                 it got from a reference every 64 s, and a leap second
- NAME.stamps.npy
                 its counter's readings at STAMPS events of an hour, ascending, as uint64
- NAME.seen.npy  the places in NAME.stamps.npy of the events that all machines saw, ascending, and
                 the numbers of these events: two rows of uint32

The oscillators are off by up to 50 ppm, and the clocks are opened up to a second off. All machines
see 100 events at the same time, after the first poll. A stamp takes 8 bytes. All processors work,
each on other machines.
"""
import multiprocessing
import sys
from pathlib import Path

import numpy

NANOS = 10**9
HZ = 24_000_000
STARTED = 1_700_000_000 * NANOS  # UTC, ns
HOUR, POLL, FIRST_POLL = 3600 * NANOS, 64 * NANOS, 16 * NANOS
LEAP_AT = HOUR // 2 + 1
SEEN_BY_ALL = 100


class Machine:
    """An oscillator, and the records of its clocks. Times are in ns since STARTED, without
    leaps."""

    def __init__(self, rng):
        self.rate = HZ / NANOS * (1 + rng.uniform(-50e-6, 50e-6))
        self.first = int(rng.integers(0, 2**40))
        self.offset = int(rng.integers(-NANOS, NANOS))
        self.error = self.rate * NANOS / HZ - 1
        self.rng = rng

    def readings(self, times):
        """Returns the counter's readings at times."""
        return numpy.floor(times * self.rate).astype(numpy.uint64) + numpy.uint64(self.first)

    def reading(self, time):
        return int(self.readings(numpy.array([time], float))[0])

    def commands(self):
        """Returns the commands by their times: the polls of a daemon, and the leap second."""
        found = [(0, "tai", (37,)), (FIRST_POLL, "step", divmod(-self.offset_at_first(), NANOS)),
                 (LEAP_AT, "step", (-1, 0)), (LEAP_AT, "tai", (38,))]
        for poll in range(FIRST_POLL, HOUR, POLL):
            # (a daemon knows the error of the oscillator only roughly)
            known = -self.error + self.rng.uniform(-2e-9, 2e-9)
            found.append((poll, "freq", (round(known * 65_536e6),)))
        return sorted(found, key=lambda command: command[0])

    def offset_at_first(self):
        """Returns REALTIME minus the true time at the first poll, in ns."""
        return self.offset + round(FIRST_POLL * self.error)

    def script(self):
        opening = STARTED + self.offset
        yield f"openhz,64,{HZ},60,{self.reading(0)},{opening // NANOS},{opening % NANOS}"
        for time, word, fields in self.commands():
            yield ",".join(map(str, (word, self.reading(time), *fields)))


def times_of(rng, stamps):
    """Returns the times of a machine's events, ascending, and the places of those that all machines
    saw."""
    shared = numpy.linspace(POLL, HOUR, SEEN_BY_ALL, endpoint=False)
    times = numpy.concatenate([shared, rng.uniform(0, HOUR, max(stamps - SEEN_BY_ALL, 0))])
    order = numpy.argsort(times, kind="stable")
    return times[order], numpy.flatnonzero(order < SEEN_BY_ALL)


def make_one(folder, number, stamps, seed):
    """Makes the files of one machine."""
    rng = numpy.random.default_rng([seed, number])
    machine, name = Machine(rng), f"machine-{number:04}"
    Path(folder, f"{name}.csv").write_text("".join(f"{it}\n" for it in machine.script()))
    times, places = times_of(rng, stamps)
    numpy.save(Path(folder, f"{name}.stamps.npy"), machine.readings(times))
    seen = numpy.array([places, numpy.arange(SEEN_BY_ALL)], numpy.uint32)
    numpy.save(Path(folder, f"{name}.seen.npy"), seen)


def make(folder, machines, stamps, seed=1):
    """Makes the files of all machines."""
    with multiprocessing.Pool() as pool:
        pool.starmap(make_one, [(folder, number, stamps, seed) for number in range(machines)])


if __name__ == "__main__":
    Path(sys.argv[1]).mkdir(parents=True, exist_ok=True)
    make(sys.argv[1], *map(int, sys.argv[2:]))
