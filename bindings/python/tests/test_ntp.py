# SPDX-License-Identifier: MIT OR Apache-2.0
"""Steered clocks: the tables of tests/c/worked_ntp.c, random requests against the definitions in
Python, and arguments that no clock takes."""
import copy
import pickle
import re
import sys
import unittest

import tkcore
from support import CALLS, ROOT, nanosecond_counter, raises, seeded
from support import rows as rows_of
from tkcore import Mode, Status, SteeredClock, TimeState, Timex

sys.path.insert(0, str(ROOT / "tests" / "c"))

# pylint: disable=wrong-import-position
import compare_ntp

TABLES = ["fresh", "frequencies", "pll", "fll", "microseconds", "adjtime", "inserted", "deleted",
          "set", "leaps", "deletions", "errors", "steps", "ticks", "late", "inserted_late", "late_refused",
          "fronts", "kernel_ticks", "counters", "refused_counters", "leap_fronts"]
OTHER = tkcore.Counter(64, 2**23, 23)  # the counter to which the tests change
NAMES = {name: getattr(tkcore, name.title().replace("_", "")) for name in
         ("ASLEEP", "AWAKE", "INVALID", "BEHIND", "RANGE", "FURTHER", "NEVER", "BAD_COMMAND")}


def rows(table):
    """Returns the records and the answers of a table of worked_ntp.c or worked_late_ntp.c."""
    text = "".join((ROOT / "tests" / "c" / name).read_text(encoding="utf-8")
                   for name in ("worked_ntp.c", "worked_late_ntp.c"))
    body = re.search(rf"struct ntp_row {table}\[\] = \{{(.*?)\n\}};", text, re.S).group(1)
    return re.findall(r'\{ "([^"]*)",\s+"([^"]*)" \}', body)


class Session:
    """Steered clocks, and their answers to the records of tests/c/ntp_records.h."""

    def __init__(self):
        self.clock = None

    def answer(self, record):
        word, *numbers = record.split(",")
        try:
            return getattr(self, word)(*(int(number, 0) for number in numbers))
        except tkcore.Error as error:
            return "no,TKC_" + next(name for name, kind in NAMES.items() if type(error) is kind)

    def open(self, bits, mult, shift, reading, sec, nsec, hz):
        self.clock = SteeredClock(tkcore.Counter(bits, mult, shift), reading,
                                  sec * tkcore.NANOS + nsec, hz)
        return "open"

    def openat(self, bits, mult, shift, reading, sec, nsec, hz, past_sec, past_nsec):
        if past_nsec >= tkcore.NANOS:
            return "no,TKC_INVALID"  # the package splits nanoseconds itself
        self.clock = SteeredClock(tkcore.Counter(bits, mult, shift), reading,
                                  sec * tkcore.NANOS + nsec, hz,
                                  past_sec * tkcore.NANOS + past_nsec)
        return "open"

    def openhz(self, bits, hz, maxsec, *others):
        counter = tkcore.Counter.from_hz(bits, hz, maxsec)
        return self.open(counter.bits, counter.mult, counter.shift, *others)

    def advance(self, reading):
        self.clock.advance(reading)
        return "ok"

    def late(self, reading):
        self.clock.advance_late(reading)
        return "ok"

    def apply(self, reading, *numbers):
        self.clock.apply(reading, *numbers)
        return "ok"

    def counter(self, reading, bits, mult, shift, first):
        """Changes the counter. The object's is that of its words, whether it was changed or not."""
        try:
            self.clock.change_counter(reading, tkcore.Counter(bits, mult, shift), first)
        finally:
            counter = self.clock.counter
            assert (counter.bits, counter.mult, counter.shift) == self.clock.save()[10:13]
        return "ok"

    def adjtimex(self, reading, *numbers):
        reply = self.clock.adjtimex(reading, Timex(*numbers))
        t = reply.timex
        digits = 9 if t.status & Status.NANO else 6
        fields = [t.offset, t.freq, t.maxerror, t.esterror, t.status, t.constant, t.tick, reply.tai]
        return ",".join(map(str, ["adj", reply.state.name.lower(), f"{t.sec}.{t.sub:0{digits}}",
                                  *fields]))

    def get(self, clock, reading):
        self.clock.advance(reading)
        sec, nsec = divmod(self.clock.snapshot().get(reading, clock), tkcore.NANOS)
        return f"at,{sec}.{nsec:09}"

    def next(self):
        return f"next,{self.clock.next_second()}"

    def tick(self, reading):
        """What tkc_ntp_tick does, and the sum of the bits that it stores."""
        before = self.clock.save()
        self.clock.advance_late(reading)
        self.clock.update(reading)
        rate, offset, following = ((before[place] != self.clock.save()[place]) for place in (2, 5, 31))
        return f"tick,{int(following or offset) + 2 * offset + 4 * rate}"

    def front(self):
        return f"front,{self.clock.snapshot().front}"

    def asked(self):
        clock, (second, by) = self.clock, self.clock.coming_leap() or (0, 0)
        return f"asked,{by},{second},{clock.status.value},{clock.frequency},{clock.tick}"


class Worked(unittest.TestCase):
    def test_rows(self):
        for table in TABLES:
            session = Session()
            for record, answer in rows(table):
                with self.subTest(table=table, record=record):
                    self.assertEqual(session.answer(record), answer)


class Model(unittest.TestCase):
    def test_random_records(self):
        session, seed = Session(), seeded().randrange(2**32)
        for record, wanted in compare_ntp.records_of(seed, CALLS // 4, have_signals=False):
            found = session.answer(record)
            if session.clock is not None:
                found = ",".join(map(str, [found, *session.clock.save()]))
            self.assertEqual(found, wanted, record)


class Saved(unittest.TestCase):
    """The saved clocks of worked_saved_ntp.c."""

    def setUp(self):
        self.clock = SteeredClock(nanosecond_counter(), 7, 1_700_000_000_000_000_005)
        self.clock.advance(9)

    def test_saved_words(self):
        saved = rows_of("worked_saved_ntp.c", "steered_words")
        self.assertEqual(self.clock.save(), saved)
        for place, word, code in rows_of("worked_saved_ntp.c", "saved_ntp_words"):
            changed = (*saved[:place], word, *saved[place + 1:])
            clock = raises(self, code, lambda: SteeredClock.load(changed))
            if code == "OK":
                self.assertEqual(clock.save(), changed)
        with self.assertRaises(tkcore.BadWords):
            SteeredClock.load(saved[:15])

    def test_full(self):
        """A second and a command need room for 3 commands below 2^63, a request for 6."""
        words = self.clock.save()
        rows = [
            (2**63 - 4, lambda clock: clock.update(9), None),
            (2**63 - 3, lambda clock: clock.update(9), 2**63 - 4),
            (2**63 - 7, lambda clock: clock.adjtimex(9, Timex()), None),
            (2**63 - 6, lambda clock: clock.adjtimex(9, Timex()), 2**63 - 7),
            (2**64 - 1, lambda clock: clock.adjtimex(9, Timex()), 2**63 - 4),
            (2**64 - 1, lambda clock: clock.advance(9), None),
            (2**63 - 4, lambda clock: clock.advance(1_000_000_002), None),
            (2**63 - 3, lambda clock: clock.advance(1_000_000_002), 2**63 - 4),
        ]
        for front, call, most in rows:
            clock = SteeredClock.load((front, *words[1:]))
            with self.subTest(front=front, most=most):
                if most is None:
                    call(clock)
                    continue
                with self.assertRaises(tkcore.Full) as raised:
                    call(clock)
                self.assertEqual((raised.exception.value, raised.exception.range),
                                 (front, (0, most)))

    def test_fronts_without_room(self):
        """A call that finds no room for its own commands leaves the clocks with the seconds up to
        its reading begun."""
        for front, reading, second, update, request in rows_of("worked_saved_ntp.c", "full_fronts"):
            before, begun = self.load({0: front}), self.load({0: front})
            raises(self, second, lambda: begun.advance(reading))
            if second != "OK":
                self.assertEqual(begun.save(), before.save())
            calls = [
                (second, 0, lambda clock: clock.advance(reading)),
                (second, 0, lambda clock: clock.advance_late(reading)),
                (update, 1, lambda clock: clock.update(reading)),
                (request, 1, lambda clock: clock.set_frequency(reading, 65_536_000)),
                (request, 0, lambda clock: clock.adjtimex(reading, Timex())),
            ]
            for code, commands, call in calls:
                clock = self.load({0: front})
                raises(self, code, lambda: call(clock))
                if code == "OK":
                    self.assertEqual(clock.snapshot().front, front + commands)
                else:
                    self.assertEqual(clock.save(), (begun if code == "FULL" else before).save())

    def test_loaded_clocks_go_on(self):
        self.clock.adjtimex(10, Timex(Mode.OFFSET | Mode.STATUS, offset=1000, status=Status.PLL))
        loaded, pickled = SteeredClock.load(self.clock.save()), pickle.loads(pickle.dumps(self.clock))
        for clock in (self.clock, loaded, pickled):
            clock.advance(2_000_000_000)
        self.assertEqual((loaded.save(), loaded.counter), (self.clock.save(), self.clock.counter))
        self.assertEqual(pickled.save(), loaded.save())

    def load(self, changes):
        """Returns the saved clocks with these words changed."""
        words = list(rows_of("worked_saved_ntp.c", "steered_words"))
        for place, word in changes.items():
            words[place] = word
        return SteeredClock.load(words)

    def refuse_all(self, clock, reading, code):
        """No call at this reading is accepted, and none changes the clocks."""
        self.refuse(clock, code, lambda: clock.advance(reading),
                    lambda: clock.advance_late(reading),
                    lambda: clock.change_counter(reading, OTHER, 0),
                    *self.commands(clock, reading))

    def commands(self, clock, reading):
        """Returns calls that give the clocks commands."""
        return (lambda: clock.update(reading), lambda: clock.set_tick(reading, 9000),
                lambda: clock.adjtimex(reading, Timex(Mode.MAXERROR, maxerror=5)))

    def refuse(self, clock, code, *calls):
        before = clock.save(), clock.counter
        for call in calls:
            raises(self, code, call)
            self.assertEqual((clock.save(), clock.counter), before)

    def test_full_changes(self):
        """A change needs room for its command. A second that is due needs room for 3, and then the
        greatest front is that of a second, also if there is no room for the change."""
        file = "worked_saved_ntp.c"
        for words, front, reading, code, after, left in rows_of(file, "full_changes"):
            clock = SteeredClock.load((front, *rows_of(file, words)[1:]))
            with self.subTest(words=words, front=front, reading=reading):
                found = raises(self, code, lambda: clock.change_counter(reading, OTHER, 11))
                self.assertEqual(clock.save(), (after, *rows_of(file, left)[1:]))
                self.assertEqual(clock.counter, nanosecond_counter() if found else OTHER)
                if code == "FULL":
                    is_due = reading > 1_000_000_001 and left == "due_words"
                    self.assertEqual((found.value, found.range),
                                     (after, (0, 2**63 - (4 if is_due else 2))))

    def test_readings_before_the_last_account(self):
        for reading, code in rows_of("worked_saved_ntp.c", "late_readings"):
            self.refuse_all(self.load({10: 64, 32: 2**60}), reading, code)

    def test_as_many_commands_as_are_counted(self):
        clock = self.load({0: 2**63 - 2})
        clock.advance_late(9)           # no second is due, so no command is needed
        self.refuse(clock, "FULL", *self.commands(clock, 9))
        self.refuse_all(clock, 6, "BEHIND")


class Arguments(unittest.TestCase):
    def setUp(self):
        counter = tkcore.Counter.from_hz(32, 1_000_000)
        self.clock = SteeredClock(counter, 0, 1_700_000_000 * tkcore.NANOS)

    def test_other_numbers(self):
        for value in (-2**63 - 1, 2**63):
            with self.assertRaises(tkcore.Invalid) as raised:
                self.clock.adjtimex(0, Timex(Mode.OFFSET, offset=value))
            self.assertEqual((raised.exception.value, raised.exception.range),
                             (value, (-2**63, 2**63 - 1)))
        with self.assertRaises(tkcore.Invalid):
            self.clock.adjtimex(0, Timex(modes=2**32))
        with self.assertRaises(TypeError):
            self.clock.adjtimex(0, Timex(freq=1.5))
        with self.assertRaises(tkcore.Invalid):
            self.clock.advance(-1)

    def test_numbers_of_requests(self):
        """Requests that are refused for a number. At the reading 5000005, 5 s of MONOTONIC have
        passed."""
        counter, steps = tkcore.Counter.from_hz(32, 1_000_000), (-1_700_000_000 * 10**9,
                                                                 6_577_292_031 * 10**9 - 1)
        freqs = (-140_737_488_355, 140_737_488_355)
        clock = SteeredClock(counter, 5, 1_700_000_000 * tkcore.NANOS, 1000)
        rows = [
            (8, Timex(Mode.ADJTIME | Mode.MAXERROR), "modes, with ADJTIME,", 32772, (32773, 32773)),
            (8, Timex(Mode.TICK, tick=8999), "tick", 8999, (9000, 11_000)),
            (8, Timex(Mode.TICK, tick=11_001), "tick", 11_001, (9000, 11_000)),
            (8, Timex(Mode.SETOFFSET, sub=-1), "sub", -1, (0, 999_999)),
            (8, Timex(Mode.SETOFFSET, sub=10**6), "sub", 10**6, (0, 999_999)),
            (8, Timex(Mode.SETOFFSET | Mode.NANO, sub=10**9), "sub", 10**9, (0, 999_999_999)),
            (8, Timex(Mode.FREQUENCY, freq=freqs[1] + 1), "freq", freqs[1] + 1, freqs),
            (8, Timex(Mode.FREQUENCY, freq=freqs[0] - 1), "freq", freqs[0] - 1, freqs),
            (8, Timex(Mode.TICK | Mode.FREQUENCY, tick=5, freq=freqs[1] + 1), "tick", 5,
             (9000, 11_000)),
            (2**32, Timex(), "reading", 2**32, (0, 2**32 - 1)),
            (5_000_005, Timex(Mode.SETOFFSET | Mode.NANO, sec=-1_700_000_001, sub=999_999_999),
             "the step of REALTIME, in ns,", steps[0] - 1, steps),
            (5_000_005, Timex(Mode.SETOFFSET, sec=6_577_292_031), "the step of REALTIME, in ns,",
             steps[1] + 1, steps),
        ]
        for reading, request, *wanted in rows:
            with self.subTest(wanted), self.assertRaises(tkcore.Invalid) as raised:
                copy.copy(clock).adjtimex(reading, request)
            found = raised.exception
            self.assertEqual([found.what, found.value, found.range], wanted)
        for request in (Timex(Mode.ADJTIME | Mode.OFFSET), Timex(Mode.TICK, tick=9000),
                        Timex(Mode.TICK, tick=11_000), Timex(Mode.SETOFFSET, sub=999_999),
                        Timex(Mode.SETOFFSET | Mode.NANO, sub=999_999_999),
                        Timex(Mode.FREQUENCY, freq=freqs[0]), Timex(Mode.FREQUENCY, freq=freqs[1]),
                        Timex(Mode.SETOFFSET, sec=-1_700_000_000),
                        Timex(Mode.SETOFFSET | Mode.NANO, sec=6_577_292_030, sub=999_999_999)):
            copy.copy(clock).adjtimex(5_000_005, request)

    def test_opening(self):
        counter = tkcore.Counter.from_hz(32, 1_000_000)
        for hz in (0, 1025, 2**32):
            with self.assertRaises(tkcore.Invalid):
                SteeredClock(counter, 0, 0, hz)
        self.assertEqual(SteeredClock(counter, 0, 0, 1024).next_second(), 1_000_000)

    def test_an_opening_with_an_uptime(self):
        counter = tkcore.Counter.from_hz(32, 1_000_000)
        hour, limit = 3600 * tkcore.NANOS, 946_080_000 * tkcore.NANOS
        clock = SteeredClock(counter, 5, 1_700_000_000 * tkcore.NANOS, uptime=hour + 7)
        clock.advance(1_000_005)
        now = clock.snapshot()
        self.assertEqual([now.get(1_000_005, tkcore.ClockId[name]) - tkcore.NANOS
                          for name in ("MONOTONIC", "MONOTONIC_RAW", "BOOTTIME", "REALTIME")],
                         [hour + 7, hour + 7, hour + 7, 1_700_000_000 * tkcore.NANOS])
        for error, real, uptime in [(tkcore.Invalid, 5, -1), (tkcore.Range, 5, limit),
                                    (tkcore.Invalid, 5, 6)]:
            with self.assertRaises(error):
                SteeredClock(counter, 0, real, uptime=uptime)

    def test_behind(self):
        self.clock.update(10)
        with self.assertRaises(tkcore.Behind) as raised:
            self.clock.adjtimex(9, Timex())
        self.assertEqual((raised.exception.value, raised.exception.range),
                         (9, (10, 10 + 2**31 - 1)))

    def test_behind_a_request(self):
        """A request without a command lets no reading before it pass."""
        self.clock.update(10)
        self.clock.adjtimex(1000, Timex(Mode.MAXERROR, maxerror=5))
        for reading in (999, 11, 9, 2**31 + 10):
            with self.assertRaises(tkcore.Behind) as raised:
                copy.copy(self.clock).advance(reading)
            self.assertEqual((raised.exception.value, raised.exception.range),
                             (reading, (1000, 10 + 2**31 - 1)))
            with self.assertRaises(tkcore.Behind) as raised:
                copy.copy(self.clock).advance_late(reading)
            self.assertEqual(raised.exception.range, (1000, 10 + 2**31 - 1))
        for reading in (1000, 10 + 2**31 - 1):
            copy.copy(self.clock).advance(reading)
            copy.copy(self.clock).advance_late(reading)

    def test_numbers_of_refused_changes(self):
        """`first` is tested before the reading. No refused change leaves another counter."""
        narrow, mask = tkcore.Counter(8, 256, 0), 2**32 - 1
        clock = SteeredClock(self.clock.counter, 5, 1_700_000_000 * tkcore.NANOS)
        clock.adjtimex(1000, Timex(Mode.MAXERROR, maxerror=5))
        for reading, first, *wanted in [
                (4, 256, tkcore.Invalid, "first", 256, (0, 255)),
                (2**32, -1, tkcore.Invalid, "first", -1, (0, 255)),
                (-1, 2**64, tkcore.Invalid, "first", 2**64, (0, 255)),
                (2**32, 255, tkcore.Invalid, "reading", 2**32, (0, mask)),
                (-1, 255, tkcore.Invalid, "reading", -1, (0, mask)),
                (2**64, 255, tkcore.Invalid, "reading", 2**64, (0, mask)),
                (4, 255, tkcore.Behind, "reading", 4, (1000, 5 + 2**31 - 1)),
                (999, 255, tkcore.Behind, "reading", 999, (1000, 5 + 2**31 - 1))]:
            self.refuse_change(clock, reading, narrow, first, *wanted)
        clock.suspend(2000)
        self.refuse_change(clock, 2**32, narrow, 255, tkcore.Invalid, "reading", 2**32, (0, mask))
        self.refuse_change(clock, 4, narrow, 256, tkcore.Invalid, "first", 256, (0, 255))
        clock.change_counter(4, narrow, 255)
        self.assertEqual((clock.counter, clock.save()[1], clock.snapshot().counter),
                         (narrow, 255, narrow))
        for reading, first in ((1.5, 0), (255, 1.5), ("1", 0), (255, None)):
            with self.assertRaises(TypeError):
                clock.change_counter(reading, self.clock.counter, first)
            self.assertEqual(clock.counter, narrow)

    def refuse_change(self, clock, reading, counter, first, error, *wanted):
        before = clock.save(), clock.counter
        with self.assertRaises(error) as raised:
            clock.change_counter(reading, counter, first)
        found = raised.exception
        self.assertEqual((type(found), found.what, found.value, found.range), (error, *wanted))
        self.assertEqual((clock.save(), clock.counter), before)

    def test_a_change_at_too_low_a_rate(self):
        """The exception is for no argument, and the clocks have only advanced."""
        clock = SteeredClock(tkcore.Counter(32, 256, 8), 5, 1_700_000_000 * tkcore.NANOS)
        clock.adjtimex(5, Timex(Mode.FREQUENCY | Mode.TICK, freq=-32_768_000, tick=9000))
        advanced, former = copy.copy(clock), clock.counter
        advanced.advance(1_113_043_488)
        with self.assertRaises(tkcore.Range) as raised:
            clock.change_counter(1_113_043_488, OTHER, 0)
        self.assertEqual((raised.exception.value, raised.exception.range), (None, None))
        self.assertEqual((clock.save(), clock.counter), (advanced.save(), former))

    def test_changed_clocks_go_on(self):
        """Copies, loaded and pickled clocks have the new counter, and a snapshot keeps its own."""
        former, snapshot = self.clock.counter, self.clock.snapshot()
        self.clock.change_counter(2_500_000, OTHER, 2**64 - 1)
        self.assertEqual(snapshot.counter, former)
        self.assertEqual(self.clock.next_second(), 499_999_999)
        for clock in (self.clock, copy.copy(self.clock), SteeredClock.load(self.clock.save()),
                      pickle.loads(pickle.dumps(self.clock))):
            self.assertEqual((clock.counter, clock.snapshot().counter), (OTHER, OTHER))
            clock.advance(2_000_000_000)
            with self.assertRaises(tkcore.Behind) as raised:
                clock.change_counter(2**64 - 2, former, 0)
            self.assertEqual((raised.exception.value, clock.counter), (2**64 - 2, OTHER))

    def test_late_seconds(self):
        """At the reading of `advance_late`, the former snapshot gives the same MONOTONIC, and that
        of `advance` more: the rate of the second that began at 1 s is lower."""
        offset = Timex(Mode.OFFSET | Mode.STATUS, offset=-100_000, status=Status.PLL)
        self.clock.adjtimex(0, offset)
        before, late, early = self.clock.snapshot(), copy.copy(self.clock), copy.copy(self.clock)
        late.advance_late(1_500_000)
        early.advance(1_500_000)
        monotonic = tkcore.ClockId.MONOTONIC
        self.assertEqual(late.snapshot().get(1_500_000, monotonic), 1_500_000_000)
        self.assertEqual(before.get(1_500_000, monotonic), 1_500_000_000)
        self.assertLess(early.snapshot().get(1_500_000, monotonic), 1_500_000_000)

    def test_commands(self):
        self.clock.suspend(5)
        with self.assertRaises(tkcore.Asleep):
            self.clock.advance(6)
        self.clock.resume(7, tkcore.NANOS)
        self.clock.set_time(8, 1_800_000_000 * tkcore.NANOS)
        reply = self.clock.adjtimex(9, Timex())
        self.assertEqual((reply.state, reply.timex.sec), (TimeState.ERROR, 1_800_000_000))


if __name__ == "__main__":
    unittest.main()
