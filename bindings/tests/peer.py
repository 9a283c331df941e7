#!/usr/bin/env python3
# SPDX-License-Identifier: MIT OR Apache-2.0
"""Writes or reads a page and a latch in a file that processes share, as peer.c describes.

    peer.py write FILE COMMANDS
    peer.py read FILE
"""
import mmap
import os
import sys
import time

import tkcore

SIZE, STEP, PAUSE, SEEN, MOST = 4096, 1_000_000, 256, 100, 100
COUNTERS = (tkcore.Counter(64, 8_388_608, 23), tkcore.Counter(56, 39_146_837, 24))


def mapped(name, is_written):
    with open(name, "r+b" if is_written else "rb") as file:
        access = mmap.ACCESS_WRITE if is_written else mmap.ACCESS_READ
        memory = memoryview(mmap.mmap(file.fileno(), SIZE, access=access))
    return memory[:256], memory[256:512], memory[512:528].cast("Q")


def frequency_at(n):
    frequency = n * 997 % 32_768_000
    return frequency if n % 4 else -frequency


def which_at(n):
    return n // 8 % 2


def reading_at(which, cycles):
    return cycles * 3 // 7 if which else cycles


def write(name, commands):
    page_memory, latch_memory, words = mapped(name, True)
    clock = tkcore.Clock(COUNTERS[0], 0, 1_700_000_000 * tkcore.NANOS)
    latch = tkcore.Latch.create(clock.snapshot(), latch_memory)
    page = tkcore.Page.create(clock, page_memory)
    for n in range(1, commands * MOST + 1):
        if n > commands and os.path.exists(f"{name}.seen"):
            break
        for _ in range(3):
            words[0] += STEP
        page.begin()
        words[0] += STEP
        reading = reading_at(which_at(n - 1), words[0])
        if n % 2:
            clock.set_tai_offset(reading, n % 100_001)
        elif n % 8:
            clock.set_frequency(reading, frequency_at(n))
        else:
            which = which_at(n)
            clock.change_counter(reading, COUNTERS[which], reading_at(which, words[0]))
        page.publish(clock)
        latch.publish(clock.snapshot())
        if n % PAUSE == 0:
            time.sleep(1e-4)
    words[1] = 1


def check_whole(snapshot):
    """Checks that a snapshot is as one command left it. Returns its front."""
    words = snapshot.words()
    front = words[0]
    tai, frequency = (front, front - 1) if front % 2 else (max(front - 1, 0), front)
    frequency -= 2 if frequency and frequency % 8 == 0 else 0
    counter = COUNTERS[which_at(front)]
    assert snapshot.counter == counter, "a snapshot has another counter"
    assert words[1] == reading_at(which_at(front), front * 4 * STEP), (
        "a snapshot has another reading")
    assert words[7] == tai % 100_001 * 2, "a snapshot has another TAI offset"
    rate = 65_536_000_000 + frequency_at(frequency)
    assert words[2] == counter.mult * rate // 65_536_000_000, "a snapshot has another multiplier"
    return front


def attached(make, memory):
    while True:
        try:
            return make(memory)
        except tkcore.BadLayout:
            pass


def read(name):
    page_memory, latch_memory, words = mapped(name, False)
    print("ready", flush=True)
    page = attached(tkcore.Page.attach, page_memory)
    latch = attached(tkcore.Latch.attach, latch_memory)
    reads, fronts, last, before, ended = 0, 0, 0, 0, 0
    while not ended:
        ended = words[1]
        snapshot, reading = page.look(lambda: words[0])
        front = check_whole(snapshot)
        now = snapshot.get(reading_at(which_at(front), reading), tkcore.ClockId.MONOTONIC)
        assert now >= before, "MONOTONIC went back"
        assert front >= last, "the front went back"
        check_whole(latch.read())
        reads, fronts, last, before = reads + 1, fronts + (front != last), front, now
        if fronts == SEEN:
            with open(f"{name}.seen", "wb"):
                pass
    print(f"{reads} reads, {fronts} fronts")
    assert fronts >= SEEN, "too few fronts were seen"


if __name__ == "__main__":
    if sys.argv[1] == "write":
        write(sys.argv[2], int(sys.argv[3]))
    else:
        read(sys.argv[2])
