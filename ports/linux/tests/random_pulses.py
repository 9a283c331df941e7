# SPDX-License-Identifier: GPL-2.0
"""Random calls and pulses of the port and of the definitions, for process.py."""
import ctypes
from dataclasses import replace

from model import NANOS
from ntp import (ADJTIME, FREQUENCY, OFFSET, ONE, SETOFFSET, STA_PLL, STA_PPSFREQ, STA_PPSJITTER,
                 STA_PPSSIGNAL, STA_PPSTIME, STATUS, toward_zero)
from pps import Pps, nearest
from random_calls import Timeline
from wrong_calls import u64


def lines_of(was, now, status, raw):
    """Yields what hardpps logs of a pulse that changes a signal: lines with their levels."""
    if status & STA_PPSJITTER and now.jitcnt == was.jitcnt:
        yield "<3>hardpps: PPSJITTER: bad pulse"
    if now.errcnt > was.errcnt:
        yield f"<3>hardpps: PPSERROR: interval too long - {nearest(raw - was.start)[0]} s"
    if now.stbcnt > was.stbcnt:
        yield f"<4>hardpps: PPSWANDER: change={toward_zero(now.frequency - was.frequency, ONE)}"
    if now.jitcnt > was.jitcnt:
        jitter = abs(now.correction - was.correction)
        yield f"<4>hardpps: PPSJITTER: jitter={jitter}, limit={was.jitter * 16}"


class PulseTimeline(Timeline):
    """Calls with CONFIG_NTP_PPS: half of them are pulses, most a second after the last one."""

    def __init__(self, seed, calls):
        super().__init__(seed, calls)
        self.steered.signal, self.raw, self.drift = Pps(), 10 * NANOS, 30_000
        self.taken = self.lost = self.rates = 0
        self.lines = {}

    def kind(self):
        if self.random.randrange(200) == 0:
            return "lose"
        return "pulse" if self.random.randrange(2) else super().kind()

    def ask(self):
        """A request, whose status often has the bits of a signal."""
        order, follow = super().ask()
        words = order.split()
        if self.random.randrange(2):
            words[2] = str(int(words[2]) | STATUS | self.random.choice([0, FREQUENCY]))
            bits = [0, STA_PPSFREQ, STA_PPSTIME, STA_PPSFREQ | STA_PPSTIME]
            words[5] = str(self.random.choice(bits) | self.random.choice([0, STA_PLL]))
        return " ".join(words), follow

    def request(self):
        """Rarely a step of REALTIME, or a call adjtime, which leaves out the frequency."""
        if self.random.randrange(6):
            super().request()
            return
        modes = self.random.choice([SETOFFSET, SETOFFSET | FREQUENCY, ADJTIME | OFFSET | FREQUENCY])
        self.adjtimex(modes=modes, sec=self.random.randrange(3), sub=0,
                      offset=self.random.randrange(-500, 500),
                      freq=self.random.randrange(-2**25, 2**25))

    def second(self):
        """The cycles of a second."""
        counter = self.steered.clock.counter
        return (NANOS << counter.shift) // counter.mult

    def pulse(self):
        later = self.random.choice([1] * 20 + [0, self.random.randrange(9, 13)]) * self.second()
        if self.random.randrange(30) == 0:
            self.drift = self.random.randrange(-600_000, 600_000)
        gap = self.random.choice([NANOS] * 40 + [0, 9 * NANOS]) + self.drift
        rare = self.random.choice([self.random.randrange(NANOS), NANOS // 2])
        self.take(later, gap, self.random.choice([self.random.randrange(500)] * 9 + [rare]))

    def lose(self):
        """The signal is lost, and a frequency is asked for before the next pulse. The first
        interval is compared with that frequency. There is none before MONOTONIC_RAW is 1 s."""
        clock, wait = self.steered.clock, self.random.randrange(10, 13) * self.second()
        self.tick_at((clock.last + wait) % 2**clock.counter.bits)
        self.adjtimex(modes=FREQUENCY, freq=self.random.choice([-400, 400]) << 16)
        self.raw = self.random.choice([self.raw, -1, 0])
        self.take(0, NANOS, 100)
        for _ in range(5):
            self.take(self.second(), NANOS + self.random.randrange(20_000), 100)

    def forward_to(self, reading):
        """Counts the signals that are lost too."""
        had = self.steered.ntp.status & STA_PPSSIGNAL
        super().forward_to(reading)
        self.lost += bool(had and not self.steered.ntp.status & STA_PPSSIGNAL)

    def take(self, later, gap, nsec):
        """A pulse some cycles after the last command, and a gap of MONOTONIC_RAW after the last
        pulse. Mostly a tick follows, which begins the second that the pulse marks."""
        signal, clock = self.steered.signal, self.steered.clock
        reading = (clock.last + later) % 2**clock.counter.bits
        self.raw += gap
        before, was = self.calls.process_time(1, self.at(reading)), replace(signal)
        changed = self.calls.process_pulse(nsec, u64(self.raw), self.at(reading))
        self.expect(changed, 0, "SSE registers after a pulse")
        self.expect(self.calls.process_time(1, self.at(reading)), before, "MONOTONIC after a pulse")
        self.change(nsec)
        self.taken += signal.calcnt - was.calcnt
        self.compare_lines(list(lines_of(was, signal, self.steered.ntp.status, self.raw)))
        if self.random.randrange(4):
            later += self.random.randrange(2 * self.interval())
            self.tick_at((clock.last + later) % 2**clock.counter.bits)

    def change(self, nsec):
        """A pulse changes the discipline at the reading of the last change, and no clock: they get
        the pulse's frequency as the next second begins."""
        clock = replace(self.steered.clock)
        self.steered.pulse(clock.last, nsec, self.raw)
        self.rates += self.steered.clock.mult() != clock.mult()
        self.steered.clock = clock

    def do_asleep(self, reading):
        """A pulse that comes while the machine sleeps does nothing."""
        self.calls.process_pulse(100, u64(self.raw + NANOS), self.at(reading))
        self.compare_lines([])

    def compare_lines(self, expected):
        """Compares the lines that the last pulse has logged, and counts each kind."""
        self.expect(self.calls.process_printed().decode().splitlines(), expected, "the log")
        for line in expected:
            kind = line.partition("=")[0].partition(" - ")[0]
            self.lines[kind] = self.lines.get(kind, 0) + 1

    def compare(self, reading):
        """Compares each number of the signal's state too."""
        super().compare(reading)
        words, it = (ctypes.c_uint64 * 10)(), self.steered.signal
        self.calls.process_signal(words)
        numbers = [it.valid + (it.shift << 32), it.jitter + (it.stabil << 32), it.correction,
                   it.balance, it.frequency, it.start, it.calcnt, it.jitcnt, it.stbcnt, it.errcnt]
        self.expect(list(words), [number % 2**64 for number in numbers], "the signal's state")
