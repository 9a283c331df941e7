#!/usr/bin/env python3
"""Runs random orders to steered clocks through the program of `crates/tk_ntp_orders` and through
their definitions in unbounded integers, and stops at the first answer that differs.

    tests/model/steered.py PROGRAM [COUNT [SEED]]     COUNT is the number of orders, 20,000 if not given
    tests/model/steered.py < orders                   writes the answers to these orders

The definitions are those of `steered_clock.py` and `ntp.py`. The first lines of the program's source
explain orders and answers.
"""
import ntp
from model import NANOS, SETTABLE_LIMIT, Counter, is_settable
from ntp import DAY, STA_DEL, STA_INS, STA_PLL, STATUS, Orders, Timex
from steered_clock import Refused, Steered


class Session:
    """Steered clocks, and the answers to orders."""

    def __init__(self):
        self.steered = None

    def answers(self, order):
        word, *numbers = order.split(",")
        numbers = [int(number) for number in numbers]
        if word == "open":
            return [self.open(*numbers)]
        if self.steered is None:
            return ["no"]
        lines = []
        try:
            reply = self.follow(word, *numbers)
            if reply:
                lines.append(",".join(map(str, ("adj", *reply))))
        except Refused as refused:
            lines.append(f"no,{str(refused).capitalize()}")
        return lines + [self.clocks("ok")]

    def open(self, bits, mult, shift, reading, sec, nsec, hz):
        if reading >= 2**bits or not is_settable(sec, nsec) or not 1 <= hz <= 1024:
            return "no,Invalid"
        self.steered = Steered(Counter(bits, mult, shift), reading, sec * NANOS + nsec, hz)
        return self.clocks("open")

    def follow(self, word, reading, *numbers):
        if word == "advance":
            return self.steered.advance(reading)
        if word == "late":
            return self.steered.advance_late(reading)
        if word == "ask":
            return self.steered.adjtimex(reading, Timex(*numbers))
        return self.steered.apply(reading, word, *numbers)

    def clocks(self, word):
        clock = self.steered.clock
        sec, frac = divmod(clock.amount, NANOS << clock.counter.shift)
        at = self.steered.next_second()
        return ",".join(map(str, (word, clock.last, sec, frac, clock.real_offset, clock.boot_offset, clock.tai,
                                  clock.frequency, clock.tick, int(clock.asleep), "none" if at is None else at)))


class SteeredOrders(Orders):
    """Random orders to steered clocks."""

    # 1 GHz, 24 MHz, 32 bits of 19.2 MHz, 16 bits of 32 kHz, 8 bits of 10 Hz, and a cycle of 2 s
    COUNTERS = [(64, 8388608, 23), (56, 174762667, 22), (32, 3495253333, 26), (16, 2000000000, 16), (8, 1600000000, 4),
                (8, 2000000000, 0)]

    def next(self):
        if self.random.randrange(200) == 0 or self.sec == 0:
            return self.opening()
        return self.later()

    def later(self):
        """An order to clocks that are open."""
        pick = self.random.randrange(1, 200)
        self.reading = (self.reading + self.gap()) % 2**self.bits
        reading = (self.reading - self.back()) % 2**self.bits
        if pick < 60:
            return f"{'late' if pick % 3 == 0 else 'advance'},{reading}"
        if pick < 150:
            return ",".join(map(str, ("ask", reading, *self.request())))
        return self.command(reading)

    def opening(self):
        if self.sec and self.random.randrange(5) == 0:      # refused: the clocks stay
            return f"open,64,8388608,23,0,{self.random.choice([0, SETTABLE_LIMIT])},0,{self.random.choice([0, 1025])}"
        self.asleep = False
        self.sec = self.random.choice([5, 1_483_228_790, 1_700_000_000, SETTABLE_LIMIT - 1])
        self.bits, mult, shift = self.random.choice(self.COUNTERS)
        self.second = max(1, (NANOS << shift) // mult)      # the cycles of a second
        self.reading = self.random.choice([0, self.random.randrange(min(2**self.bits, 2**62))])
        hz = self.random.choice([1, 100, 250, 250, 1000, 1000, self.random.randrange(1, 1025)])
        nsec = self.random.choice([0, 500_000_000, self.random.randrange(NANOS)])
        return f"open,{self.bits},{mult},{shift},{self.reading},{self.sec},{nsec},{hz}"

    def gap(self):
        pick = self.random.randrange(20)
        if pick == 0 and self.random.randrange(20) == 0:
            return min(self.second * self.random.choice([600, DAY // 8]), 2**(self.bits - 1) - 1)
        if pick < 6:
            return 0
        return self.random.randrange(1 + min(self.second * self.random.choice([1, 1, 3, 10]), 2**(self.bits - 1) - 1))

    def back(self):
        """The cycles that a reading goes back by: seldom any."""
        if self.random.randrange(10):
            return 0
        most = min(self.reading, 2**63 - 1) if self.bits == 64 else 2**(self.bits - 1) - 1
        return min(self.random.choice([1, 2, self.random.randrange(1 + 2 * self.second)]), most)

    def request(self):
        fields = super().request()
        if self.random.randrange(4) == 0:                   # a leap second, soon if the time is set to it
            fields[0], fields[5] = STATUS, self.random.choice([STA_INS, STA_DEL, STA_PLL | STA_INS, STA_PLL | STA_DEL, 0])
        return fields

    def command(self, reading):
        words = ["update", "update", "set", "step", "leap", "freq", "tick", "tai", "suspend", "resume"]
        word = self.random.choice(words + 30 * ["resume"] if self.asleep else words)
        self.asleep = word == "suspend" or self.asleep and word != "resume"
        if word in ("update", "suspend"):
            numbers = []
        elif word in ("freq", "tick", "tai"):
            numbers = [self.random.choice([9_000, 10_000, 11_000, 37, self.number()])]
        elif word == "set":
            day = self.random.randrange(1, 20_000) * DAY
            numbers = [self.random.choice([day - self.random.randrange(1, 6), self.number()]),
                       self.random.randrange(NANOS)]
        elif word == "leap":
            numbers = [self.random.choice([-1, 1, self.number()]), self.random.choice([0, 37, 100_000, self.number()])]
        elif word == "resume" and self.random.randrange(10):
            numbers = [self.random.choice([0, 1, 3, 100_000]), self.random.randrange(NANOS)]
        else:
            numbers = [self.random.choice([0, 1, -1, 3, self.number()]), self.random.choice([0, self.random.randrange(NANOS), NANOS])]
        return ",".join(map(str, (word, reading, *numbers)))


if __name__ == "__main__":
    ntp.main(20_000, SteeredOrders, Session)
