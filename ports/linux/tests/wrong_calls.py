# SPDX-License-Identifier: GPL-2.0
"""Calls with wrong arguments, for process.py."""
import ctypes
import random
import sys

from kernel import Timex


APART_NS = 1000  # between the kernels' clocks, whose rates are rounded in their own ways


def u64(number):
    return ctypes.c_uint64(number % 2**64)


def s64(number):
    return ctypes.c_int64(number)


class Log(ctypes.Structure):
    """What calls have logged (struct process_log)."""

    _fields_ = [("old", ctypes.c_int64 * 6), ("new", ctypes.c_int64 * 6),
                *((it, ctypes.c_int64) for it in ("records", "moved_sec", "moved_nsec", "moves",
                                                  "inserted", "deleted", "sets", "notes"))]


def logged(kernel):
    """Returns what the last calls of a kernel have logged: the changes of its audit records, the
    number of them, of moves of REALTIME and of leap seconds; the ns of the last move; and how many
    calls informed timers of a set clock, and the RTC of a request."""
    log = Log()
    kernel.process_logged(ctypes.byref(log))
    changes = [(it, old, new) for it, (old, new) in enumerate(zip(log.old, log.new)) if old != new]
    moved = log.moved_sec * 10**9 + log.moved_nsec
    counts = log.records, log.moves, log.inserted, log.deleted
    return (changes if log.records else [], *counts), moved, log.sets, log.notes


class Wrong:
    """Calls with wrong arguments, of the unmodified kernel and of the port."""

    SECONDS = -2**63, -1, 0, 1, 2**31, 8277292035, 8277292036, 9223372035, 9223372036, 2**62
    PARTS = -2**63, -1, 0, 999_999, 10**6, 999_999_999, 10**9, 2**62
    NUMBERS = -2**63, -140737488356, -140737488355, -1, 0, 899, 9000, 11000, 11001, 2**40, 2**63 - 1

    def __init__(self, seed, *kernels):
        self.random, self.kernels = random.Random(seed), kernels
        self.refused = self.changes = 0
        for it in kernels:
            it.process_boot(64, 8388608, 23, u64(0), s64(0), s64(0), u64(0))

    def settime(self, reading):
        sec, nsec = self.random.choice(self.SECONDS), self.random.choice(self.PARTS)
        numbers = ctypes.c_int64(sec), ctypes.c_int64(nsec), u64(reading)
        return f"settime {sec} {nsec}", [it.process_settime(*numbers) for it in self.kernels]

    def adjtimex(self, reading):
        bits = [2**it for it in range(16)]
        fields = {"modes": sum(self.random.sample(bits, self.random.randrange(4))),
                  "sec": self.random.choice(self.SECONDS), "sub": self.random.choice(self.PARTS),
                  **{it: self.random.choice(self.NUMBERS)
                     for it in ("offset", "freq", "maxerror", "esterror", "constant", "tick")}}
        codes = [it.process_adjtimex(ctypes.byref(Timex.of(**fields)), u64(reading))
                 for it in self.kernels]
        return f"adjtimex {fields}", codes

    def clear(self, reading):
        """Clears the discipline of both kernels: a refused set or step does so in the unmodified one."""
        for it in self.kernels:
            it.process_settime(s64(10**9), s64(0), u64(reading))
            logged(it)

    def compare_logs(self, text):
        (old, moved, _, notes), (new, moved_here, _, notes_here) = map(logged, self.kernels)
        if notes > notes_here:  # (the unmodified kernel informs of no refused step)
            sys.exit(f"process: {text}: the RTC isn't informed")
        if old != new or abs(moved - moved_here) > APART_NS:
            sys.exit(f"process: {text}: the unmodified kernel logs {old} and {moved} ns, "
                     f"ours {new} and {moved_here} ns")
        self.changes += len(new[0])

    def compare(self, count):
        for number in range(count):
            make = self.settime if self.random.randrange(3) == 0 else self.adjtimex
            reading = (number + 1) * 10**7
            text, codes = make(reading)
            if min(codes[0], 0) != min(codes[1], 0):
                sys.exit(f"process: {text}: the unmodified kernel {codes[0]}, ours {codes[1]}")
            self.compare_logs(text)
            if codes[1] < 0:
                self.refused += 1
                self.clear(reading)
