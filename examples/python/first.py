#!/usr/bin/env python3
# SPDX-License-Identifier: MIT OR Apache-2.0
"""Prints REALTIME, in ns, two seconds after the clocks of a counter of 1 MHz were opened."""
import tkcore

counter = tkcore.Counter.from_hz(bits=32, hz=1_000_000)
clock = tkcore.Clock(counter, reading=0, realtime=1_700_000_000 * tkcore.NANOS)
clock.update(1_000_000)
print(clock.snapshot().get(2_000_000, tkcore.ClockId.REALTIME))
