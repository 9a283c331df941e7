# SPDX-License-Identifier: MIT OR Apache-2.0
"""Calls with any arguments: each gives a result or an exception of this package, and no crash."""
import unittest
from array import array

import tkcore
from support import BAD_CALLS, nanosecond_counter, opened, seeded

# The exceptions that name a number and the range that it is out of.
WITH_RANGE = (tkcore.Invalid, tkcore.BadBits, tkcore.BadShift, tkcore.BadMult, tkcore.BadAdjust,
              tkcore.BadRate, tkcore.BadCommand, tkcore.BadRoom)


class Arguments:
    """Random calls on clocks, with any arguments."""

    EDGES = [-1, 0, 1, 7, 2**31, 2**32, 2**63 - 1, 2**63, 2**64 - 1, 2**64, 10**30]

    def __init__(self, rng):
        self.rng = rng
        self.clock = self.steered = None
        some, near = self.some, self.near

        def number():
            return rng.choice([some(), rng.randrange(9)])

        self.calls = [
            lambda: (self.clock.apply, some(), number(), some(), some()),
            lambda: (self.clock.step, some(), some()),
            lambda: (self.clock.set_time, some(), some()),
            lambda: (self.clock.resume, some(), some()),
            lambda: (self.clock.leap, some(), rng.choice([-1, 1, some()]), number()),
            lambda: (self.clock.change_counter, some(), self.steered.counter, some()),
            lambda: (self.clock.snapshot().get, some(), number()),
            lambda: (self.clock.snapshot().reading_at, some(), number()),
            lambda: (self.clock.snapshot().convert, array("Q", [abs(some()) % 2**64, 5]), number()),
            lambda: (tkcore.Counter, some(), some(), some()),
            lambda: (tkcore.Counter.from_hz, some(), some(), some()),
            lambda: (tkcore.Clock, self.clock.counter, some(), some()),
            lambda: (tkcore.Clock, self.clock.counter, 5, some(), some()),
            lambda: (self.clock.counter.gap, some(), some()),
            lambda: (self.clock.counter.nanos, some()),
            lambda: (tkcore.Clock.load, self.words()),
            lambda: (tkcore.Clock.from_words, self.clock.counter, self.words(), some(), some()),
            lambda: (tkcore.Snapshot.from_words, self.clock.counter, self.words()),
            lambda: (tkcore.SteeredClock, self.steered.counter, near(), some(), number()),
            lambda: (tkcore.SteeredClock.load, self.saved()),
            lambda: (self.steered.advance, near()),
            lambda: (self.steered.advance_late, near()),
            lambda: (self.steered.apply, near(), number(), some(), some()),
            lambda: (self.steered.step, near(), some()),
            lambda: (self.steered.leap, near(), rng.choice([-1, 1, some()]), number()),
            lambda: (self.steered.change_counter, near(), self.narrow(),
                     rng.choice([some(), rng.randrange(2**32)])),
            lambda: (self.steered.next_second,),
        ] + [lambda: (self.steered.adjtimex, near(), self.request())] * 4

    def open(self):
        self.clock = opened()
        self.steered = tkcore.SteeredClock(nanosecond_counter(), 0, 10**18)

    def some(self):
        rng = self.rng
        return rng.choice([lambda: rng.choice(self.EDGES), lambda: rng.randrange(20),
                           lambda: rng.randrange(2**32), lambda: rng.randrange(2**64),
                           lambda: -rng.randrange(2**63)])()

    def near(self):
        """Returns a reading of the steered clocks, often one that they accept."""
        if self.rng.randrange(4) == 0:
            return self.some()
        return (self.steered.snapshot().words()[1] + self.rng.randrange(2**30)) % 2**32

    def narrow(self):
        """Returns a counter of 32 bits, as that of the steered clocks is: their own, or another."""
        return self.rng.choice([self.steered.counter, tkcore.Counter(32, 300, 5),
                                nanosecond_counter()])

    def counter_words(self):
        counter = self.steered.counter
        return counter.bits, counter.mult, counter.shift

    def words(self):
        return [self.some() for _ in range(self.rng.choice([9, 10, 10, 11, 15]))]

    def saved(self):
        """Returns the words of the steered clocks, of which some are changed."""
        words = list(self.steered.save())
        for _ in range(self.rng.randrange(3)):
            words[self.rng.randrange(len(words))] = self.some()
        return words

    def request(self):
        modes, *others = (self.some() for _ in range(10))
        return tkcore.Timex(modes & self.rng.randrange(2**32), *others[:6],
                            self.rng.choice([others[6], 10_000]), *others[7:])


class Calls(unittest.TestCase):
    def test_random_arguments(self):
        rng = seeded()
        given = Arguments(rng)
        refused = 0
        for number in range(BAD_CALLS):
            if number % 100 == 0:
                given.open()
            call, *arguments = rng.choice(given.calls)()
            try:
                call(*arguments)
            except tkcore.Error as error:
                refused += 1
                self.check_range(error, arguments)
            self.assertEqual(given.counter_words(), given.steered.save()[10:13])
        self.assertLess(refused, BAD_CALLS)
        print(f"\n{BAD_CALLS} random calls: {refused} raised an exception of the package")

    def check_range(self, error, arguments):
        """An exception that is for a number has a number that is out of its range."""
        if isinstance(error, WITH_RANGE):
            self.assertFalse(error.range[0] <= error.value <= error.range[1], (error, arguments))
        if isinstance(error, tkcore.Behind):
            self.assertEqual((error.what, error.value), ("reading", arguments[0]))
            first, last = error.range  # (of a counter of 32 bits)
            self.assertGreater((error.value - first) % 2**32, (last - first) % 2**32)


if __name__ == "__main__":
    unittest.main()
