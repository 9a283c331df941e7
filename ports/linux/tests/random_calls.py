# SPDX-License-Identifier: GPL-2.0
"""Random calls of the port and of the definitions, for process.py."""
import ctypes
import sys
from dataclasses import replace

from kernel import Timex
from late import Orders
from model import NANOS, Counter
from ntp import TAI, Timex as Request
from random_sleeps import Sleeps
from steered_clock import Refused, Steered
from wrong_calls import logged, s64, u64

HZ = 250
STATES = "Ok", "Ins", "Del", "Oop", "Wait", "Error"
SIGNAL = "ppsfreq", "jitter", "shift", "stabil", "jitcnt", "calcnt", "errcnt", "stbcnt"
EINVAL = -22
OTHER = 0x123456789abcd  # by how much the other counter's readings are ahead
COUNTERS = [(64, 8388608, 23), (64, 16777216, 24), (56, 174762667, 22), (32, 3495253333, 26),
            (48, 1943600000, 27)]  # (this one can't be raised: adjtimex may add more than 10.5 %)
INFORMED = "set", "inject", "switch"  # the calls that always inform timers of a set clock
RENEWED = "set", "inject", "switch", "sleep"  # the calls that others treat as a set of REALTIME


class Uses(ctypes.Structure):
    """What is in use (struct process_uses)."""

    _fields_ = [("first", ctypes.c_int32), ("other", ctypes.c_int32),
                *((it, ctypes.c_int32) for it in ("modules", "is_broken", "is_gone"))]


def finer(bits, mult, shift):
    """The counter that the port makes of a clocksource's numbers (tk_finer)."""
    most, by = mult + mult // 9 + 1, 0
    while shift + by < 28 and most << by + 1 < 2**32:
        by += 1
    return Counter(bits, mult << by, shift + by)


class Timeline(Sleeps, Orders):
    """Random calls of a kernel that has just booted, and of the definitions."""

    def __init__(self, seed, calls):
        super().__init__(seed)
        self.calls, self.kinds, self.ahead = calls, {}, 0
        self.numbers = self.random.choice(COUNTERS)
        start = self.random.randrange(2**min(self.numbers[0], 60))
        self.uptime = self.random.randrange(5 * NANOS)
        wall = self.random.randrange(10, 10**9)
        calls.process_boot(*self.numbers, u64(start), s64(0), s64(wall), u64(self.uptime))
        self.steered = Steered(finer(*self.numbers), start, wall * NANOS, HZ, self.uptime)

    def at(self, reading):
        """The reading of the first counter at a reading of the present one."""
        return u64(reading - self.ahead)

    def reading(self):
        """Rarely a reading at which the product of the kernel's own line is past 2^64."""
        clock, bits = self.steered.clock, self.steered.clock.counter.bits
        past = 2**64 // clock.mult() + 1
        if past > 2**bits // 3 or self.random.randrange(200):
            return super().reading()
        return (clock.last + past + self.random.randrange(past // 1000)) % 2**bits

    def forward_to(self, reading):
        self.steered.advance_late(reading)
        self.steered.apply(reading, "update")

    def tick(self):
        reading, clock = self.reading(), self.steered.clock
        if self.random.randrange(8) == 0:
            reading = clock.last + self.interval() - self.random.randrange(2)
        self.tick_at(reading % 2**clock.counter.bits)

    def interval(self):
        """The cycles of a tick, rounded."""
        _, mult, shift = self.numbers
        return ((NANOS // HZ << shift) + mult // 2) // mult

    def tick_at(self, reading):
        """A tick does nothing before its interval has passed since the last change."""
        clock = self.steered.clock
        self.expect(self.calls.process_tick_with_sse(self.at(reading)), 0, "SSE registers")
        if clock.counter.gap(clock.last, reading) >= self.interval():
            self.forward_to(reading)

    def set(self):
        """A reading behind the last one is taken as the last one."""
        reading = asked = self.reading()
        if self.random.randrange(4) == 0:
            reading = self.steered.clock.last
            asked = (reading - self.random.randrange(1, 1000)) % 2**self.steered.clock.counter.bits
        day = self.random.randrange(1, 20_000) * 86_400
        sec, nsec = day - self.random.randrange(5), self.random.randrange(NANOS)
        if self.random.randrange(10) == 0:
            sec = 0  # (refused when MONOTONIC is past it)
        code = self.calls.process_settime(ctypes.c_int64(sec), ctypes.c_int64(nsec), self.at(asked))
        self.forward_to(reading)
        try:
            self.steered.apply(reading, "set", sec, nsec)
            expected = 0
        except Refused:
            expected = EINVAL
        self.expect(code, expected, "settime")

    def request(self):
        if self.random.randrange(20) == 0:
            self.adjtimex(modes=TAI, constant=self.random.randrange(36, 39))
            return
        order, _ = self.ask()
        _, _, modes, offset, freq, status, constant, tick = order.split()
        self.adjtimex(modes=int(modes), offset=int(offset), freq=int(freq), status=int(status),
                      constant=int(constant), tick=int(tick))

    def adjtimex(self, **fields):
        reading = self.reading()
        timex = Timex.of(**fields)
        got = self.calls.process_adjtimex(ctypes.byref(timex), self.at(reading))
        self.forward_to(reading)
        reply = self.steered.adjtimex(reading, Request(**fields))
        state, *signal = self.signal_of(reply[0])
        self.expect(got, STATES.index(state), "adjtimex")
        self.expect([getattr(timex, it) for it in SIGNAL], signal, "the signal's fields")

    def signal_of(self, state):
        """The state of a reply and the fields that show the signal: 0 without one."""
        signal = self.steered.signal
        return signal.reply(self.steered.ntp.status, state) if signal else [state] + [0] * len(SIGNAL)

    def fail(self):
        """Asks for a counter that can't be used, which changes nothing."""
        uses = Uses.in_dll(self.calls, "process_uses")
        name = self.random.choice(["is_broken", "is_gone"])
        setattr(uses, name, 1)
        numbers = self.random.choice(COUNTERS)
        self.expect(self.calls.process_switch(*numbers, self.at(self.reading())), -1, "notify")
        setattr(uses, name, 0)

    def switch(self):
        """Goes on with another counter, as tkc_clock_change_counter and a step of nothing do."""
        reading, self.numbers = self.reading(), self.random.choice(COUNTERS)
        self.expect(self.calls.process_switch(*self.numbers, self.at(reading)), 0, "notify")
        self.forward_to(reading)
        old, new = self.steered.clock, finer(*self.numbers)
        now, self.ahead = reading - self.ahead, OTHER - self.ahead
        first = (now + self.ahead) % 2**new.bits
        self.steered.clock = replace(
            old, counter=new, last=first, amount=(old.amount << new.shift) >> old.counter.shift,
            raw_amount=(old.raw_amount << new.shift) >> old.counter.shift)
        self.steered.lag, self.steered.last_account = 0, first
        self.steered.apply(first, "step", 0, 0)

    def expect(self, got, expected, what):
        if got != expected:
            sys.exit(f"process: {what} returned {got}, not {expected}")

    def compare(self, reading):
        """Compares all clocks at a reading that isn't behind."""
        clock, fast = self.steered.clock, 0 if self.steered.clock.asleep else 100
        values = {0: clock.value("realtime", reading), 1: clock.value("monotonic", reading),
                  7: clock.value("boottime", reading), 11: clock.value("tai", reading),
                  300: clock.value("realtime", reading), 301: clock.value("monotonic", reading),
                  5: clock.value("realtime", clock.last), 6: clock.value("monotonic", clock.last),
                  407: clock.boot_offset, 411: clock.tai,
                  200: clock.value("realtime", clock.last) // NANOS,
                  201: clock.value("monotonic", clock.last) // NANOS}
        raw = clock.raw_amount + clock.cycles(reading) * clock.counter.mult
        values[4] = values[304] = (raw >> clock.counter.shift) - self.uptime
        if fast:
            values.update({100: values[0], 101: values[1], 104: values[4]})
        else:
            values = {101: values[1], 407: values[407], 411: values[411]}
        for number, value in values.items():
            got = self.calls.process_time(number, self.at(reading))
            self.expect(got, value, f"clock {number} at {reading}")
        self.expect(self.calls.process_status(), self.steered.ntp.status, "status")
        by, second = self.steered.coming_leap()
        leap = second * NANOS - clock.real_offset if by == -1 else 2**63 - 1
        self.expect(self.calls.process_leap(), leap, "leap")

    def compare_changes(self, kind, before):
        """Compares what other parts of the kernel notice of a call. Timers are informed of each
        change of REALTIME or TAI, and cross timestamps compare how many there were."""
        is_set = self.offsets() != before[2:]
        sets, counters = (now - was for now, was in zip(self.sequences(), before))
        informed = logged(self.calls)[2]
        uses = Uses.in_dll(self.calls, "process_uses")
        if kind != "sleep":
            self.expect(informed > 0, is_set or kind in INFORMED, f"{kind}: informing of a set")
        self.expect(sets > 0, is_set or kind in RENEWED, f"{kind}: the number of sets")
        self.expect(counters % 256, kind == "switch", f"{kind}: the number of clocksources")
        self.expect((uses.first, uses.other, uses.modules), (not self.ahead, bool(self.ahead), 0),
                    f"{kind}: the uses of clocksources")

    def offsets(self):
        return self.steered.clock.real_offset, self.steered.clock.tai

    def sequences(self):
        """Returns how many times REALTIME or TAI was set, and the clocksource was changed."""
        out = (ctypes.c_uint32 * 2)()
        self.calls.process_sequences(out)
        return tuple(out)

    def kind(self):
        return self.random.choices(["tick", "set", "request", "sleep", "inject", "switch", "fail"],
                                   [66, 5, 22, 3, 1, 2, 1])[0]

    def step(self):
        """Makes a call, and compares all clocks some time later."""
        kind = self.kind()
        self.kinds[kind] = self.kinds.get(kind, 0) + 1
        before = *self.sequences(), *self.offsets()
        getattr(self, kind)()
        self.compare_changes(kind, before)
        clock = self.steered.clock
        later = (self.random.randrange(10**9) << clock.counter.shift) // clock.counter.mult
        self.compare((clock.last + later) % 2**clock.counter.bits)
