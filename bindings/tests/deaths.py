#!/usr/bin/env python3
# SPDX-License-Identifier: MIT OR Apache-2.0
"""The calls of the Python package on a page and a latch, at each of their stores and loads: see
deaths.h.

    deaths.py LIBRARY       the shared object of deaths*.c
"""
import ctypes
import sys

import tkcore
from tkcore import NANOS

COUNTERS = [tkcore.Counter(64, 1 << 23, 23), tkcore.Counter(64, 1 << 24, 23)]
LIMIT = 100  # seconds in which a reader must get a snapshot

ACT = ctypes.CFUNCTYPE(None, ctypes.c_void_p, ctypes.c_uint64, ctypes.c_uint64)
READ = ctypes.CFUNCTYPE(ctypes.c_uint64, ctypes.c_void_p, ctypes.c_uint64,
                        ctypes.POINTER(ctypes.c_uint64))


def opened():
    return tkcore.Clock(COUNTERS[0], 0, 1_700_000_000 * NANOS)


def command(clock):
    front = clock.snapshot().front
    reading = 1000 * (front + 1)
    if front % 4 == 0:
        clock.set_frequency(reading, front % 1000 * 32_768)
    elif front % 4 == 1:
        clock.set_tick(reading, 9000 + front % 2000)
    elif front % 4 == 2:
        clock.set_tai_offset(reading, front % 1000)
    else:
        clock.change_counter(reading, COUNTERS[0 if front // 4 % 2 else 1], reading)


def memories(address):
    """Returns the memory of the page and of the latch."""
    sizes = (tkcore.Page.SIZE, tkcore.Latch.SIZE)
    return [(ctypes.c_char * size).from_address(address + place)
            for size, place in zip(sizes, (0, sizes[0]))]


def live(page, latch, count):
    clock = page.clock()
    page.recover(clock)
    latch.recover(clock)
    for _ in range(count):
        with page.writing(clock):
            command(clock)
        latch.publish(clock.snapshot())


@ACT
def act(address, which, count):
    page, latch = memories(address)
    clock = opened()
    if which == 0:
        tkcore.Page.create(clock, page)
        tkcore.Latch.create(clock.snapshot(), latch)
    elif which == 1:
        tkcore.Page.create(clock.snapshot(), page)
        tkcore.Latch.create(clock.snapshot(), latch)
    elif which == 2:
        tkcore.Page.attach(page).publish(clock.snapshot())
    else:
        live(tkcore.Page.attach(page), tkcore.Latch.attach(latch), count)


@READ
def read(address, which, words):
    page, latch = memories(address)
    shared = tkcore.Page.attach(page) if which < 3 else tkcore.Latch.attach(latch)
    try:
        if which == 0:
            snapshot = shared.clock().snapshot()
        elif which in (1, 3):
            snapshot = shared.read(LIMIT)
        else:
            snapshot = shared.look(lambda: 0, LIMIT)[0]
    except tkcore.Busy:
        return tkcore.Busy.code
    counter = snapshot.counter
    for place, word in enumerate((*snapshot.words(), counter.bits, counter.mult, counter.shift)):
        words[place] = word
    return 0


ctypes.CDLL(sys.argv[1]).deaths_run(b"Python", act, read)
