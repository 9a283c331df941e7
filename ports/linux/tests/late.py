#!/usr/bin/env python3
# SPDX-License-Identifier: GPL-2.0
"""Compares tkcore/late.h with the definition of seconds that begin late, on random orders.

    ports/linux/tests/late.py DIST [COUNT [SEED]]     COUNT is the number of orders (20,000)

The definition is advance_late of tests/model/steered_clock.py. All saved words must be equal except
the front, and each leap second must be logged. It ends with status 1 at the first difference, or if
too few seconds began late.
"""
import pathlib
import random
import subprocess
import sys
import tempfile

HERE = pathlib.Path(__file__).resolve().parent
sys.path.insert(0, str(HERE.parents[2] / "tests/model"))
sys.dont_write_bytecode = True
from model import NANOS, Counter  # noqa: E402
from ntp import (DAY, FREQUENCY, NANO, OFFSET, STA_DEL, STA_INS, STA_PLL, STATUS, TICK,  # noqa: E402
                 Timex)
from steered_clock import Refused, Steered  # noqa: E402

COUNTERS = [(64, 8388608, 23), (64, 268435456, 28), (56, 174762667, 22), (32, 3495253333, 26),
            (24, 2343484437, 23)]
COMMANDS = {"update": 0, "set": 1, "step": 2}


def build(dist, folder):
    """Compiles late.c against the library, and returns the program."""
    program = folder / "late"
    subprocess.run(["gcc", "-O1", "-Wall", "-Wextra", "-Wno-sign-compare", "-I", dist / "include",
                    HERE / "late.c", dist / "lib/libtkcore_kernel_sse.a", "-o", program], check=True)
    return program


class Orders:
    """Random orders, and the words that the definitions give after them."""

    def __init__(self, seed):
        self.random = random.Random(seed)
        self.steered, self.late, self.logged = None, 0, {1: 0, -1: 0, 0: 0}

    def open(self):
        bits, mult, shift = self.random.choice(COUNTERS)
        reading = self.random.randrange(2**min(bits, 62))
        day = self.random.randrange(1, 20_000) * DAY
        sec, nsec = day + self.random.choice([0, -3, 40]), self.random.randrange(NANOS)
        hz = self.random.choice([100, 250, 300, 1000])
        self.steered = Steered(Counter(bits, mult, shift), reading, sec * NANOS + nsec, hz)
        return f"open {bits} {mult} {shift} {reading} {sec} {nsec} {hz}", lambda: None

    def reading(self):
        """A reading soon after the last one: mostly less than a second, sometimes several."""
        clock = self.steered.clock
        span = self.random.choice([0, 10**6, 10**8, 10**9, 22 * 10**8])
        cycles = (self.random.randrange(span + 1) << clock.counter.shift) // clock.counter.mult
        return (clock.last + cycles) % 2**clock.counter.bits

    def forward(self):
        reading = self.reading()

        def follow():
            due = self.steered.due(reading)
            self.late += due not in (None, reading)
            tai = self.steered.clock.tai
            self.steered.advance_late(reading)
            self.logged[self.steered.clock.tai - tai] += 1
            self.steered.apply(reading, "update")
        return f"forward {reading}", follow

    def command(self):
        word = self.random.choice(list(COMMANDS))
        real = self.steered.clock.value("realtime", self.steered.clock.last)
        sec = {"update": 0, "set": (real // DAY // NANOS + 1) * DAY - self.random.choice([2, 4]),
               "step": self.random.randrange(-5, 5)}[word]
        nsec, reading = self.random.randrange(NANOS), self.steered.clock.last
        fields = () if word == "update" else (sec, nsec)
        return (f"command {reading} {COMMANDS[word]} {sec} {nsec}",
                lambda: self.steered.apply(reading, word, *fields))

    def ask(self):
        modes = self.random.choice([FREQUENCY, TICK, STATUS, OFFSET | STATUS | NANO])
        status = self.random.choice([0, STA_PLL, STA_PLL | STA_INS, STA_PLL | STA_DEL, STA_INS, STA_DEL])
        offset, freq = self.random.randrange(-10**8, 10**8), self.random.randrange(-2**25, 2**25)
        constant, tick = self.random.randrange(11), self.random.randrange(9_000, 11_001)
        reading = self.steered.clock.last
        request = Timex(modes, offset=offset, freq=freq, status=status, constant=constant, tick=tick)
        return (f"ask {reading} {modes} {offset} {freq} {status} {constant} {tick}",
                lambda: self.steered.adjtimex(reading, request))

    def next(self):
        """Returns an order, and the answer of the definitions without its code."""
        pick = self.random.randrange(1000) if self.steered else 0
        make = (self.open if pick < 5 else self.command if pick < 50
                else self.ask if pick < 300 else self.forward)
        order, follow = make()
        try:
            follow()
            is_done = True
        except Refused:
            is_done = False
        leaps = self.logged[1], self.logged[-1]
        return order, is_done, [str(it) for it in (*self.steered.saved()[1:], *leaps)]


def main():
    if len(sys.argv) not in (2, 3, 4) or sys.argv[1][:1] == "-":
        sys.exit(__doc__)
    count, seed = (int(it) for it in (*sys.argv[2:], *("20000", "1")[len(sys.argv) - 2:]))
    orders = Orders(seed)
    expected = [orders.next() for _ in range(count)]
    with tempfile.TemporaryDirectory() as folder:
        program = build(pathlib.Path(sys.argv[1]), pathlib.Path(folder))
        text = "".join(f"{order}\n" for order, _, _ in expected)
        ran = subprocess.run([program], input=text, capture_output=True, text=True, check=True)
    for (order, is_done, words), line in zip(expected, ran.stdout.splitlines(), strict=True):
        code, *got = line.split()
        if (code == "0") != is_done or got != words:
            sys.exit(f"late: after {order!r} (seed {seed}) code {code}, words\n{got}\n{words}")
    leaps = orders.logged[1] + orders.logged[-1]
    if orders.late < count // 20 or leaps < count // 2000 or 0 in orders.logged.values():
        sys.exit(f"late: only {orders.late} seconds began late, with {leaps} leaps")
    print(f"late: {count} orders, {orders.late} late seconds, {leaps} leaps: equal words")
    return 0


if __name__ == "__main__":
    sys.exit(main())
