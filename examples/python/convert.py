#!/usr/bin/env python3
# SPDX-License-Identifier: MIT OR Apache-2.0
"""Converts a million stamps of a tracer into REALTIME, as examples/c/convert.c does.

The clocks were steered and stepped before. One call converts all stamps, and a second call stops at
a stamp that the counter can't show.
"""
from array import array

import tkcore

HZ, OPENED_AT, FIRST = 24_000_000, 12_345, 12_345 + 12_000_000

clock = tkcore.Clock(tkcore.Counter.from_hz(48, HZ), OPENED_AT, 1_700_000_000 * tkcore.NANOS)
clock.set_frequency(OPENED_AT + HZ // 4, -20 * 65_536)
clock.step(OPENED_AT + HZ // 2, 1_500_000_000)
stamps = array("Q", range(FIRST, FIRST + 1_000_000 * 24_007, 24_007))

times = clock.snapshot().convert(stamps, tkcore.ClockId.REALTIME)
print(f"{len(times)} stamps: from {times[0]} ns to {times[-1]} ns")
print(f"their sum modulo 2^64: {sum(times) % 2**64}")

stamps[654_321] = 2**64 - 1  # no reading of 48 bits
try:
    clock.snapshot().convert(stamps, tkcore.ClockId.REALTIME)
except tkcore.Invalid as refused:
    print(f"stamp {refused.done} is above the counter's readings")
