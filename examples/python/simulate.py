#!/usr/bin/env python3
# SPDX-License-Identifier: MIT OR Apache-2.0
"""Simulates a machine whose oscillator is off, and which steers its clocks by a reference.

    pip install bindings/python && examples/python/simulate.py

A poll asks the reference for the true time. The machine steps its clock by the first offset. A
later offset shows the error of the frequency. The clocks are the library's, so they lose no
nanosecond and follow the rules of the kernel. The table's columns are:

- seconds of true time;
- REALTIME minus true time, in ns;
- the frequency after the poll, in ppm.

The program ends with status 1 if the clocks don't get within a microsecond of the true time.
"""
import sys

import tkcore

HZ = 24_000_000
OFF_PPB = 37_250  # the oscillator is too fast by this, in parts of 10^9
STARTED = 1_700_000_000 * tkcore.NANOS
POLL = 16 * tkcore.NANOS
POLLS = 8
STEP_LIMIT = tkcore.NANOS // 8
PPM = 65_536  # one ppm, in a frequency's unit of 2^-16 ppm


class Machine:
    """The clocks of an oscillator. They are opened 2.5 s behind the true time."""

    def __init__(self):
        counter = tkcore.Counter.from_hz(bits=48, hz=HZ)
        self.clock = tkcore.Clock(counter, self.reading(STARTED), STARTED - 5 * tkcore.NANOS // 2)
        self.frequency = 0
        self.offset = None

    def reading(self, true_time):
        """Returns the counter's reading at a true time."""
        cycles = (true_time - STARTED) * HZ * (tkcore.NANOS + OFF_PPB) // tkcore.NANOS**2
        return (cycles + 987_654_321) % 2**48

    def measure(self, true_time):
        """Returns REALTIME minus the true time, in ns."""
        realtime = self.clock.snapshot().get(self.reading(true_time), tkcore.ClockId.REALTIME)
        return realtime - true_time

    def poll(self, true_time):
        """Steps the clocks if they are far off. Otherwise steers them, so that they gain no more,
        and lose their offset until the next poll. Returns the offset."""
        offset, reading = self.measure(true_time), self.reading(true_time)
        if abs(offset) > STEP_LIMIT:
            self.clock.step(reading, -offset)
            self.offset = 0
            return offset
        gained = offset - self.offset
        self.frequency -= (gained + offset) * PPM * 1_000_000 // POLL
        self.clock.set_frequency(reading, self.frequency)
        self.offset = offset
        return offset


def main():
    machine = Machine()
    offset, true_time = None, STARTED
    for _ in range(POLLS):
        true_time += POLL
        offset = machine.poll(true_time)
        seconds, frequency = (true_time - STARTED) // tkcore.NANOS, machine.frequency / PPM
        print(f"{seconds:5} {offset:12} {frequency:9.3f}")
    sys.exit(0 if abs(offset) < 1000 else 1)


if __name__ == "__main__":
    main()
