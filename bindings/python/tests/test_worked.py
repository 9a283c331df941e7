# SPDX-License-Identifier: MIT OR Apache-2.0
"""The calls whose codes and results were computed manually: the tables of tests/c/worked_*.c,
except the changes of counter (test_changes.py)."""
import itertools
import pickle
import unittest
from array import array

import tkcore
from support import (clock_id, command, commanded, nanosecond_counter, nanos, opened, opened_wide,
                     raises, rows)
from tkcore import NANOS

OPENED = rows("worked_commands.c", "OPENED")
COMMANDED = rows("worked_rows.c", "COMMANDED")


class Counters(unittest.TestCase):
    def test_numbers(self):
        for bits, mult, shift, code in rows("worked_counters.c", "descriptions"):
            made = raises(self, code, lambda: tkcore.Counter(bits, mult, shift))
            if code == "OK":
                self.assertEqual((made.bits, made.mult, made.shift), (bits, mult, shift))

    def test_rates(self):
        makers = {"rates_hz": tkcore.Counter.from_hz, "rates_khz": tkcore.Counter.from_khz,
                  "rates_finest": tkcore.Counter.finest}
        for table, make in makers.items():
            for bits, rate, maxsec, code, mult, shift in rows("worked_counters.c", table):
                made = raises(self, code, lambda: make(bits, rate, maxsec))
                if code == "OK":
                    self.assertEqual(made, tkcore.Counter(bits, mult, shift))


class Cycles(unittest.TestCase):
    def test_gaps(self):
        for bits, start, end, gap in rows("worked_cycles.c", "gaps"):
            self.assertEqual(tkcore.Counter(bits, 16_777_216, 24).gap(start, end), gap)

    def test_nanos(self):
        for mult, shift, cycles, wanted in rows("worked_cycles.c", "all_nanos"):
            self.assertEqual(tkcore.Counter(64, mult, shift).nanos(cycles), wanted)

    def test_refused(self):
        counter = nanosecond_counter()
        for call in (lambda: counter.gap(-1, 0), lambda: counter.gap(0, -1),
                     lambda: counter.nanos(-1)):
            with self.assertRaises(tkcore.Invalid) as raised:
                call()
            self.assertEqual((raised.exception.value, raised.exception.range), (-1, (0, 2**64 - 1)))


class Queries(unittest.TestCase):
    """The tables of worked_queries.c."""

    def test_coarse(self):
        snapshot = commanded().snapshot()
        for clock, sec, nsec in rows("worked_queries.c", "coarse"):
            self.assertEqual(snapshot.coarse(clock_id(clock)), nanos(sec, nsec))
        for clock in (2, 2**32 - 1, 2**32):
            with self.assertRaises(tkcore.BadClock):
                snapshot.coarse(clock)

    def test_steps(self):
        for table, opening in (("steps", commanded), ("far_steps", opened_wide)):
            for reading, sec, nsec, code, before, after in rows("worked_queries.c", table):
                if nsec == NANOS:
                    continue  # the package splits nanoseconds itself
                clock, amount = opening(), nanos(sec, nsec)
                found = raises(self, code, lambda: clock.snapshot().stepped(reading, amount))
                made = raises(self, code, lambda: clock.step(reading, amount))
                if code == "OK":
                    self.assertEqual(found, (nanos(*before[:2]), nanos(*after[:2])))
                else:
                    self.assertEqual((found.what, found.value, found.range),
                                     (made.what, made.value, made.range))

    def test_refused_arguments(self):
        snapshot = commanded().snapshot()
        for reading, amount in ((-1, 0), (2**64, 0), (9000, 2**63 * NANOS)):
            with self.assertRaises(tkcore.Invalid):
                snapshot.stepped(reading, amount)
        clock = commanded()
        clock.suspend(9000)
        with self.assertRaises(tkcore.Asleep):
            clock.snapshot().stepped(9000, 0)


class Uptimes(unittest.TestCase):
    def test_openings(self):
        counter = nanosecond_counter()
        for reading, sec, nsec, up_sec, up_nsec, code in rows("worked_openings.c", "openings"):
            if NANOS in (nsec, up_nsec):
                continue  # the package splits nanoseconds itself
            real, uptime = nanos(sec, nsec), nanos(up_sec, up_nsec)
            made = raises(self, code, lambda: tkcore.Clock(counter, reading, real, uptime))
            if code != "OK":
                self.assertFalse(made.range[0] <= made.value <= made.range[1], made)
                continue
            words, fresh = made.words(), tkcore.Clock(counter, reading, real).words()
            self.assertEqual(words[1:], fresh[1:])
            for clock, time in (("MONOTONIC", uptime), ("MONOTONIC_RAW", uptime),
                                ("BOOTTIME", uptime), ("REALTIME", real), ("TAI", real)):
                self.assertEqual(made.snapshot().get(reading, tkcore.ClockId[clock]), time)

    def test_numbers(self):
        clock = commanded()
        words, frequency, tick = clock.words()
        self.assertEqual((clock.frequency, clock.tick), (frequency, tick))
        snapshot = clock.snapshot()
        self.assertEqual((snapshot.front, snapshot.tai_offset, snapshot.is_asleep),
                         (words[0], 37, False))
        clock.suspend(10_000)
        self.assertIs(clock.snapshot().is_asleep, True)
        self.assertEqual(clock.snapshot().front, words[0] + 1)


class Commands(unittest.TestCase):
    def try_all(self, clock, table):
        for reading, word, number, nsec, code in rows("worked_commands.c", table):
            before = clock.words()
            raises(self, code, lambda: clock.apply(reading, command(word), number, nsec))
            if code != "OK":
                self.assertEqual(clock.words(), before)

    def test_openings(self):
        for reading, sec, nsec, code in rows("worked_commands.c", "openings"):
            if nsec == NANOS:
                continue  # the package splits nanoseconds itself
            made = raises(self, code,
                          lambda: tkcore.Clock(nanosecond_counter(), reading, nanos(sec, nsec)))
            if code == "OK":
                self.assertEqual(made.words(), OPENED)

    def test_one_of_each(self):
        self.assertEqual(commanded().words(), COMMANDED)

    def test_one_of_each_by_its_method(self):
        clock = opened()
        clock.update(1000)
        clock.set_time(2000, 1_800_000_000 * NANOS + 5)
        clock.step(3000, -NANOS + 1)
        clock.set_frequency(4000, 0)
        clock.set_tick(5000, 10_000)
        clock.set_tai_offset(6000, 37)
        clock.suspend(7000)
        clock.resume(9000, 2 * NANOS + 3)
        self.assertEqual(clock.words(), COMMANDED)

    def test_refused(self):
        self.try_all(opened(), "refused_commands")

    def test_leap(self):
        clock = opened()
        self.try_all(clock, "leap_commands")
        self.assertEqual(clock.words(), rows("worked_commands.c", "LEAPT"))

    def test_leap_by_its_method(self):
        """REALTIME moves, TAI runs on, and MONOTONIC and BOOTTIME stay."""
        for by, opening in itertools.product((-1, 1), (tkcore.Clock, tkcore.SteeredClock)):
            clock = opening(nanosecond_counter(), 0, nanos(1_700_000_000, 0))
            clock.set_tai_offset(500, 37)
            before = clock.snapshot()
            clock.leap(1000, by, 37 - by)
            after = clock.snapshot()
            self.assertEqual(after.tai_offset, 37 - by)
            moves = {"REALTIME": by * NANOS, "TAI": 0, "MONOTONIC": 0, "MONOTONIC_RAW": 0,
                     "BOOTTIME": 0}
            for reading, (name, amount) in itertools.product((1000, 2000), moves.items()):
                times = [it.get(reading, tkcore.ClockId[name]) for it in (before, after)]
                self.assertEqual(times[1] - times[0], amount, (by, opening, reading, name))

    def test_last(self):
        self.try_all(opened_wide(), "last_commands")

    def test_counted(self):
        words, frequency, tick = opened().words()
        words = (2**63 - 2, *words[1:])
        clock = tkcore.Clock.from_words(nanosecond_counter(), words, frequency, tick)
        self.try_all(clock, "counted_commands")
        self.assertEqual(clock.words()[0][0], 2**63 - 1)


class Saved(unittest.TestCase):
    """The saved clocks of worked_saved.c."""

    def test_saved_words(self):
        words, frequency, tick = commanded().words()
        saved = commanded().save()
        self.assertEqual(saved, (*words, 32, 16_777_216, 24, frequency % 2**64, tick))
        self.assertEqual(tkcore.Clock.load(saved).counter, nanosecond_counter())
        for place, word, code in rows("worked_saved.c", "saved_words"):
            changed = (*saved[:place], word, *saved[place + 1:])
            clock = raises(self, code, lambda: tkcore.Clock.load(changed))
            if code == "OK":
                self.assertEqual(clock.save(), changed)
        with self.assertRaises(tkcore.BadWords):
            tkcore.Clock.load(words)


class Reads(unittest.TestCase):
    def test_reads(self):
        snapshot = commanded().snapshot()
        for word, sec, nsec in rows("worked_reads.c", "reads"):
            self.assertEqual(snapshot.get(9100, clock_id(word)), nanos(sec, nsec))

    def test_refused(self):
        for is_wide, word, reading, code in rows("worked_reads.c", "refused_reads"):
            snapshot = (opened_wide() if is_wide else commanded()).snapshot()
            raises(self, code, lambda: snapshot.get(reading, clock_id(word)))

    def test_lists(self):
        for is_wide, word, room, count, stamps, code, done, out in rows("worked_lists.c", "lists"):
            snapshot = (opened_wide() if is_wide else commanded()).snapshot()
            given = array("Q", (stamps + (0,) * 5)[:count])
            times = array("Q", [7] * 5)
            found = raises(self, code, lambda: snapshot.convert(given, clock_id(word),
                                                                memoryview(times)[:room]))
            self.assertEqual(list(times), [7 if time == "OLD" else time for time in out])
            if code in ("INVALID", "RANGE"):
                self.assertEqual((found.done, found.value), (done, given[done]))

    def test_far_lists(self):
        for mult, shift in rows("worked_far_lists.c", "rates"):
            clock = tkcore.Clock(tkcore.Counter(64, mult, shift), 1000, 0)
            clock.update(1_234_567)
            words = clock.words()[0]

            def monotonic(cycles):
                return words[4] * NANOS + (cycles * words[2] + words[3] >> shift)

            near = [2**power + step for power in range(60) for step in (-1, 0, 1)]
            near += [(2**64 - 1) // mult + step for step in range(-20, 20)]
            cycles = [it for it in near if monotonic(it) < 946_080_000 * NANOS]
            stamps = array("Q", [1_234_567 + it for it in cycles])
            self.assertEqual(list(clock.snapshot().convert(stamps, tkcore.ClockId.MONOTONIC)),
                             [monotonic(it) for it in cycles])

    def test_the_limit_at_each_place_of_a_list(self):
        limit = 946_080_000 * NANOS
        for mult, shift in rows("worked_far_lists.c", "rates"):
            clock = tkcore.Clock(tkcore.Counter(64, mult, shift), 0, 0)
            past = -(-(limit << shift) // mult)  # the first reading whose time is at the limit
            for place in range(24):
                stamps = array("Q", [past + ((it - place) << 23) for it in range(24)])
                times = array("Q", [7] * 24)
                with self.assertRaises(tkcore.Range) as raised:
                    clock.snapshot().convert(stamps, tkcore.ClockId.MONOTONIC, times)
                self.assertEqual(raised.exception.done, place)
                self.assertEqual(list(times), [it * mult >> shift for it in stamps[:place]]
                                 + [7] * (24 - place))


class Readings(unittest.TestCase):
    def test_of_reads(self):
        snapshot = commanded().snapshot()
        for word, reading, first in rows("worked_readings.c", "read_times"):
            time = snapshot.get(reading, clock_id(word))
            self.assertEqual(snapshot.reading_at(time, clock_id(word)), first)
            self.assertEqual(snapshot.get(first, clock_id(word)), time)

    def test_reached(self):
        snapshot = commanded().snapshot()
        for word, sec, nsec, first in rows("worked_readings.c", "reached_times"):
            self.assertEqual(snapshot.reading_at(nanos(sec, nsec), clock_id(word)), first)

    def test_missed(self):
        asleep = commanded()
        asleep.suspend(10_000)
        clocks = {"COMMANDED_CLOCKS": commanded(), "WIDE_CLOCKS": opened_wide(),
                  "ASLEEP_CLOCKS": asleep}
        for of, word, sec, nsec, code in rows("worked_readings.c", "missed_times"):
            raises(self, code,
                   lambda: clocks[of].snapshot().reading_at(nanos(sec, nsec), clock_id(word)))

    def test_times_outside_of_int64(self):
        """Seconds that C can't express: all clocks have reached the lower ones."""
        asleep = commanded()
        asleep.suspend(10_000)
        for clock, last in ((commanded(), 9000), (asleep, 10_000)):
            snapshot = clock.snapshot()
            for number in tkcore.ClockId:
                for time in (nanos(-2**63, 0), nanos(-2**63, 0) - 1, -10**30):
                    self.assertEqual(snapshot.reading_at(time, number), last)
                for time in (nanos(2**63, 0), 10**30):
                    found = raises(self, "NEVER", lambda: snapshot.reading_at(time, number))
                    self.assertEqual(found.value, time)
            for time in (-10**30, 10**30):
                raises(self, "BAD_CLOCK", lambda: snapshot.reading_at(time, 2))
            with self.assertRaises(TypeError):
                snapshot.reading_at(1.5, 0)


class Words(unittest.TestCase):
    def test_they_give_the_values_back(self):
        counter, clock = nanosecond_counter(), commanded()
        self.assertEqual(tkcore.Snapshot.from_words(counter, COMMANDED[0]), clock.snapshot())
        self.assertEqual(tkcore.Clock.from_words(counter, *COMMANDED).words(), COMMANDED)

    def test_pickles_give_the_values_back(self):
        for value in (nanosecond_counter(), commanded().snapshot()):
            self.assertEqual(pickle.loads(pickle.dumps(value)), value)
        self.assertEqual(pickle.loads(pickle.dumps(commanded())).words(), COMMANDED)

    def test_wrong(self):
        for place, word in rows("worked_words.c", "wrong_words"):
            words = [0, 0, 16_777_216, 0, 0, 0, 0, 0, 0, 0]
            words[place] = word
            for make in (lambda: tkcore.Snapshot.from_words(nanosecond_counter(), words),
                         lambda: tkcore.Clock.from_words(nanosecond_counter(), words, 0, 10_000)):
                raises(self, "BAD_WORDS", make)

    def test_running(self):
        for mult, frequency, tick, raw_frac, code in rows("worked_words.c", "running"):
            words = (5, 0, mult, 0, 0, 0, 0, 0, raw_frac, 0)
            made = raises(self, code, lambda: tkcore.Clock.from_words(nanosecond_counter(), words,
                                                                      frequency, tick))
            if code == "OK":
                self.assertEqual(made.words(), (words, frequency, tick))


if __name__ == "__main__":
    unittest.main()
