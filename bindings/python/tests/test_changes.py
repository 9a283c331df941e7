# SPDX-License-Identifier: MIT OR Apache-2.0
"""The changes of counter whose codes and results were computed manually, in tests/c."""
import pickle
import unittest

import tkcore
from support import (clock_id, command, nanosecond_counter, nanos, opened, opened_wide, raises,
                     rows)
from tkcore import NANOS


class Changes(unittest.TestCase):
    """The changes of counter of worked_changes.c and worked_refused_changes.c."""

    NAMES = ("NANOSECOND", "WIDE", "FINE", "EXACT", "SLOW", "NARROW", "MILLISECOND", "HALVES",
             "WHOLE", "COARSE", "HALF")

    def setUp(self):
        numbers = rows("worked_changes.c", "counters")
        self.assertEqual(len(numbers), len(self.NAMES))
        self.counters = {name: tkcore.Counter(*row) for name, row in zip(self.NAMES, numbers)}

    def apply(self, clock, file, table):
        for reading, word, number, nsec, code in rows(file, table):
            before = clock.save()
            raises(self, code, lambda: clock.apply(reading, command(word), number, nsec))
            if code != "OK":
                self.assertEqual(clock.save(), before)

    def change(self, clock, file, table):
        for reading, name, first, code in rows(file, table):
            before, counter = (clock.counter, clock.save()), self.counters[name]
            raises(self, code, lambda: clock.change_counter(reading, counter, first))
            if code == "OK":
                self.assertEqual(clock.counter, counter)
            else:
                self.assertEqual((clock.counter, clock.save()), before)

    def read(self, clock, file, table):
        snapshot = clock.snapshot()
        for word, reading, sec, nsec in rows(file, table):
            self.assertEqual(snapshot.get(reading, clock_id(word)), nanos(sec, nsec))

    def try_all(self, clock, file, *tables):
        """Applies the tables in turn: changes, reads, or commands, as their names say."""
        for table in tables:
            kind = self.read if table.endswith("_reads") else self.change
            (self.apply if table in self.COMMANDS else kind)(clock, file, table)

    COMMANDS = ("fastest", "to_255", "suspension", "resumption", "near_boottime_end",
                "near_tai_end", "slowest", "usual_again")

    def test_shifts(self):
        file, clock = "worked_changes.c", opened()
        self.try_all(clock, file, "fastest")
        before = clock.snapshot()
        self.try_all(clock, file, "to_fine", "fine_reads")
        self.assertEqual(clock.words(), rows(file, "FINE_WORDS"))
        self.assertEqual(before.get(1_000_000_007, tkcore.ClockId.MONOTONIC), nanos(1, 499_970))
        self.try_all(clock, file, "to_nanoseconds", "nanosecond_reads")
        self.assertEqual(clock.words(), rows(file, "NANOSECOND_WORDS"))
        self.assertEqual(pickle.loads(pickle.dumps(clock)).words(), clock.words())
        clock = tkcore.Clock(self.counters["FINE"], 0, 5 * NANOS)
        self.try_all(clock, file, "to_halves", "halves_reads", "to_whole", "whole_reads")

    def test_a_thousand(self):
        clock = opened()
        clock.set_frequency(0, 32_768_000)
        counters = [self.counters[name] for name in ("FINE", "COARSE", "NANOSECOND")]
        for turn in range(1000):
            clock.change_counter(4 * turn + 10, counters[turn % 3], 3 * turn + 3)
        self.assertEqual(clock.words(), rows("worked_changes.c", "CHANGED_WORDS"))

    def test_widths(self):
        clock = tkcore.Clock(self.counters["NARROW"], 200, 0)
        self.try_all(clock, "worked_changes.c", "to_255", "to_wide", "wide_reads")

    def test_asleep(self):
        self.try_all(opened(), "worked_changes.c", "suspension", "asleep_changes", "asleep_reads",
                     "resumption", "resumed_reads")

    def test_limits(self):
        file = "worked_refused_changes.c"
        for table in ("near_boottime_end", "near_tai_end"):
            clock = tkcore.Clock(self.counters["NANOSECOND"], 0, 0)
            self.try_all(clock, file, table, "changes_at_a_limit")
        self.try_all(opened_wide(), file, "last_changes", "last_reads")

    def test_rates(self):
        file = "worked_refused_changes.c"
        self.try_all(opened(), file, "slowest", "refused_changes", "slowest_changes",
                     "slowest_reads")
        self.try_all(opened(), file, "slowest", "usual_again", "usual_changes")

    def test_counted(self):
        words, frequency, tick = opened().words()
        clock = tkcore.Clock.from_words(nanosecond_counter(), (2**63 - 2, *words[1:]), frequency,
                                        tick)
        self.try_all(clock, "worked_refused_changes.c", "counted_changes")
        self.assertEqual(clock.words()[0][0], 2**63 - 1)


if __name__ == "__main__":
    unittest.main()
