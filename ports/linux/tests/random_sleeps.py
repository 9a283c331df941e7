# SPDX-License-Identifier: GPL-2.0
"""Random sleeps of the port and of the definitions, for process.py."""
import ctypes

from model import NANOS
from steered_clock import Refused
from wrong_calls import s64, u64


class Sleeps:
    """Sleeps whose length comes from a clocksource, the persistent clock or the RTC."""

    kept = 0  # REALTIME minus the persistent clock's time at a sleep

    def set_persistent_clock(self, sec):
        ctypes.c_int64.in_dll(self.calls, "process_wall").value = sec

    def slept_since(self, sec):
        """The persistent clock's time when a sleep starts, in ns (timekeeping_suspend). It has only
        seconds, so its difference from REALTIME is kept, unless that has changed by 2 s or more."""
        clock = self.steered.clock
        change = clock.value("realtime", clock.last) - sec * NANOS - self.kept
        if abs(change // NANOS) < 2:
            return sec * NANOS + change
        self.kept += change
        return sec * NANOS

    def sleep(self):
        """A sleep. A clocksource's length takes precedence over the persistent clock's."""
        reading, ns = self.reading(), self.random.choice([0, 0, 10**9, 12_345_678_901])
        woken = self.random.randrange(2**min(self.steered.clock.counter.bits, 60))
        real = self.steered.clock.value("realtime", self.steered.clock.last) // NANOS
        sec = max(1, real + self.random.choice([-1, 0, 0, 1, 2, 1000, -1000]))
        later = max(1, sec + self.random.choice([0, 1, 2, 3600, -1, -5]))
        self.set_persistent_clock(sec)
        self.calls.process_suspend(self.at(reading))
        self.forward_to(reading)
        self.steered.apply(reading, "suspend")
        since = self.slept_since(sec)
        self.compare(self.random.randrange(2**16))
        self.do_asleep(woken)
        self.set_persistent_clock(later)
        self.calls.process_resume(u64(ns), self.at(woken))
        self.steered.apply(woken, "resume", *divmod(ns or max(0, later * NANOS - since), NANOS))

    def do_asleep(self, reading):
        """What happens while the machine sleeps."""

    def inject(self):
        """A sleep that the RTC reports after it has ended, rarely one that is out of range."""
        reading, sec = self.reading(), self.random.choice([0, 1, 5, 86_400, 2**40])
        nsec, expected = self.random.randrange(NANOS), []
        self.calls.process_inject(s64(sec), s64(nsec), self.at(reading))
        self.forward_to(reading)
        self.steered.apply(reading, "suspend")
        try:
            self.steered.apply(reading, "resume", sec, nsec)
        except Refused:
            self.steered.apply(reading, "resume", 0, 0)
            expected = ["<4>timekeeping: a sleep is out of range"]
        self.steered.apply(reading, "step", 0, 0)
        self.expect(self.calls.process_printed().decode().splitlines(), expected, "the log")
