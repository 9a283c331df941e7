# SPDX-License-Identifier: MIT OR Apache-2.0
"""A copy and a pickle of each type is a value of its own: the original moves, and the copy
doesn't."""
import copy
import pickle
import unittest

import tkcore
from support import nanosecond_counter, opened
from tkcore import ClockId, Mode

COPIES = [copy.copy, copy.deepcopy]
COPIES += [lambda value, protocol=protocol: pickle.loads(pickle.dumps(value, protocol))
           for protocol in range(pickle.HIGHEST_PROTOCOL + 1)]
FINE = tkcore.Counter(56, 2 << 24, 24)  # 2 ns a cycle


def steered():
    clock = tkcore.SteeredClock(nanosecond_counter(), 0, 1_700_000_000 * tkcore.NANOS)
    clock.adjtimex(5, tkcore.Timex(Mode.FREQUENCY, freq=65_536))
    return clock


def journal():
    return tkcore.Journal(opened(), 0)


def state(value):
    """Returns all that calls on a value show."""
    if isinstance(value, tkcore.Journal):
        return list(value.readings), list(value.snapshots), state(value.clock)
    return (value.counter, value.save(), value.snapshot())


def moves(value):
    """Returns the calls that move a value, in the order in which they are made."""
    if isinstance(value, tkcore.Journal):
        return [lambda: value.add(7, lambda: value.clock.set_tick(7, 9000)),
                lambda: value.clock.update(8), lambda: value.change_counter(9, FINE, 4)]
    if isinstance(value, tkcore.SteeredClock):
        return [lambda: value.advance(2_000_000_000),
                lambda: value.set_tai_offset(2_000_000_001, 37),
                lambda: value.adjtimex(2_000_000_002, tkcore.Timex(Mode.MAXERROR, maxerror=9)),
                lambda: value.change_counter(2_000_000_003, FINE, 4), lambda: value.suspend(5)]
    return [lambda: value.set_tick(7, 9000), lambda: value.set_frequency(8, 65_536),
            lambda: value.change_counter(9, FINE, 4), lambda: value.suspend(5)]


class Copies(unittest.TestCase):
    def check(self, moved, other):
        """Moves one value: the other one must stay."""
        self.assertIs(type(other), type(moved))
        self.assertEqual(state(other), state(moved))
        before = state(other)
        for move in moves(moved):
            former = state(moved)
            move()
            self.assertNotEqual(state(moved), former)
            self.assertEqual(state(other), before)

    def test_values_that_move(self):
        for make in (opened, steered, journal):
            for take in COPIES:
                original = make()
                self.check(original, take(original))
                original = make()
                self.check(take(original), original)

    def test_a_refused_change_of_counter(self):
        """It leaves the counter and the clocks, of copies too."""
        for make in (opened, steered):
            for take in COPIES:
                clock = take(make())
                before = state(clock)
                for error, reading, first in ((tkcore.Behind, 2**31 + 100, 4),
                                              (tkcore.Invalid, 2**32, 4),
                                              (tkcore.Invalid, 9, 2**56)):
                    with self.assertRaises(error):
                        clock.change_counter(reading, FINE, first)
                    self.assertEqual(state(clock), before)

    def test_values_that_do_not_move(self):
        request, fine = tkcore.Timex(Mode.TICK, tick=9000), tkcore.Clock(FINE, 5, 6, 4)
        for value in (nanosecond_counter(), FINE, opened().snapshot(), fine.snapshot(), request,
                      steered().adjtimex(9, request), ClockId.TAI, tkcore.Command.LEAP, Mode.NANO,
                      tkcore.Status.PLL, tkcore.TimeState.OOP):
            for take in COPIES:
                made = take(value)
                self.assertIs(type(made), type(value))
                self.assertEqual(made, value)

    def test_a_snapshot_stays_when_its_clocks_move(self):
        for make in (opened, steered):
            clock = make()
            snapshot = clock.snapshot()
            words = snapshot.words()
            for move in moves(clock):
                move()
                self.assertEqual(snapshot.words(), words)
                self.assertEqual(snapshot.counter, nanosecond_counter())


if __name__ == "__main__":
    unittest.main()
