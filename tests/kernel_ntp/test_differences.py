"""Each difference from Linux that docs/NTP.md lists, in the kernel's own code and in the library.

    [LIBRARY=FILE] [SOURCES=FOLDER] python3 -m unittest discover -s tests/kernel_ntp

FILE is libtkcore.so; the definitions of tests/model are taken if it isn't given. FOLDER contains
the kernel's sources, if they are unpacked already (`kernel.unpack`). A cycle of the counter lasts a
nanosecond, and HZ is 250, unless a test says otherwise.
"""
import os
import random
import tempfile
import unittest
from pathlib import Path

from kernel import ARCHIVE, Kernel, Timex, compiled, unpack
from library import CODES, RESUME, SET_TIME, SUSPEND, UPDATE, Library, Model, model, ntp
from timeline import Known, Timeline

SECOND = 10**9
MS = 10**6
GIGAHERTZ = 64, 8_388_608, 23
FIRST_TICK = 3 * MS                                 # ticks follow every 4 ms
MIDNIGHT = ntp.DAY * 17_167
REALTIME, MONOTONIC, TAI = 0, 1, 11
OK, INS, DEL, OOP, WAIT, ERROR = range(6)
LIBRARY, SOURCES = os.environ.get("LIBRARY"), os.environ.get("SOURCES")


@unittest.skipUnless(ARCHIVE.exists(), "linux-source-6.1 isn't installed")
class Differences(unittest.TestCase):
    @classmethod
    def setUpClass(cls):
        folder = tempfile.TemporaryDirectory()
        cls.addClassCleanup(folder.cleanup)
        cls.folder = Path(SOURCES or folder.name)
        if not SOURCES:
            unpack(cls.folder)
        if LIBRARY:
            Library.load(LIBRARY)

    def open(self, sec, nsec=0, hz=250, counter=GIGAHERTZ):
        """Boots a kernel, and opens clocks at the same reading, 0."""
        self.kernel = Kernel(compiled(self.folder, hz), counter, 0, sec, nsec)
        self.addCleanup(self.kernel.close)
        self.ours = (Library if LIBRARY else Model)(counter, 0, sec, nsec, hz)
        self.tick, self.reading = FIRST_TICK, 0

    def to(self, reading):
        """Lets the kernel tick up to a reading, at which calls follow."""
        self.tick = self.kernel.ticks(self.tick, reading)[0]
        self.reading = reading

    def ask(self, modes=0, **fields):
        """Gives both a request. Returns the states, and the replies."""
        theirs = Timex.of(modes=modes, **fields)
        ours = theirs.copy()
        state = self.kernel.adjtimex(theirs, self.reading)
        code, our_state = self.ours.adjtimex(ours, self.reading)
        self.assertEqual(state < 0, code != 0)
        return (state, our_state), (theirs, ours)

    def both(self, name):
        """Returns a field of both replies to a request that changes nothing."""
        return tuple(getattr(reply, name) for reply in self.ask()[1])

    def times(self, clock=REALTIME):
        return self.kernel.time(clock, self.reading), self.ours.time(clock, self.reading)

    def announce(self, status, tai):
        """Announces a leap second."""
        self.ask(ntp.STATUS | ntp.MAXERROR | ntp.TAI, status=status, maxerror=0, constant=tai)

    def give_offset(self, ns, constant):
        modes = ntp.OFFSET | ntp.STATUS | ntp.TIMECONST | ntp.NANO | ntp.MAXERROR
        self.ask(modes, offset=ns, constant=constant, status=ntp.STA_PLL, maxerror=0)

    def test_a_second_begins_at_its_exact_reading(self):
        self.open(1_700_000_000, SECOND // 2)
        self.ask(ntp.STATUS | ntp.MAXERROR, status=0, maxerror=0)
        self.to(SECOND // 2 + 1)
        self.assertEqual(self.both("maxerror"), (0, 500))
        self.to(SECOND // 2 + FIRST_TICK)
        self.assertEqual(self.both("maxerror"), (500, 500))

    def test_a_leap_is_made_at_its_exact_reading(self):
        self.open(MIDNIGHT - 2, SECOND // 2)
        self.announce(ntp.STA_INS, 36)
        self.to(3 * SECOND // 2 + 1)
        self.assertEqual(self.times(), (MIDNIGHT * SECOND + 1, (MIDNIGHT - 1) * SECOND + 1))
        self.assertEqual((self.ask()[0], self.both("tai")), ((OOP, OOP), (37, 37)))
        self.to(3 * SECOND // 2 + FIRST_TICK)
        self.assertEqual(self.times(), ((MIDNIGHT - 1) * SECOND + FIRST_TICK,) * 2)

    def test_a_leap_second_that_was_slept_over(self):
        self.open(MIDNIGHT - 2, SECOND // 2)
        self.announce(ntp.STA_INS, 36)
        self.to(SECOND)
        self.kernel.suspend(SECOND)
        self.assertEqual(self.ours.apply(SECOND, SUSPEND), 0)
        self.kernel.resume(2 * SECOND, SECOND)
        self.assertEqual(self.ours.apply(SECOND, RESUME, 2, 0), 0)
        self.assertEqual(self.times(), ((MIDNIGHT + 1) * SECOND + SECOND // 2,) * 2)
        self.assertEqual((self.ask()[0], self.both("sec"), self.both("tai")),
                         ((OOP, INS), (MIDNIGHT, MIDNIGHT + 1), (37, 36)))

    def test_an_offsets_frequency_counts_at_once(self):
        self.open(1_700_000_000)
        self.give_offset(0, 0)
        self.to(10 * SECOND + 500 * MS)             # a tick is at 499 ms, the next one at 503 ms
        self.give_offset(100 * MS, 0)
        self.assertEqual(self.both("freq"), (32_768_000,) * 2)
        theirs, ours = self.times()
        self.to(10 * SECOND + 502 * MS)
        self.assertEqual(self.times()[0] - theirs, 2 * MS)
        self.assertAlmostEqual(self.times()[1] - ours, 2 * MS + 1000, delta=1)

    def test_seconds_that_no_call_saw_keep_their_phases(self):
        self.open(1_700_000_000)
        self.give_offset(100 * MS, 4)
        self.tick = 100 * SECOND + FIRST_TICK
        self.to(self.tick)
        theirs, ours = self.both("offset")
        self.assertEqual(theirs, ours)
        due = 1_700_000_000 * SECOND + self.reading
        theirs_gained, ours_gained = (time - due for time in self.times())
        self.assertAlmostEqual(ours_gained, 100 * MS - ours, delta=MS)
        self.assertGreater(ours_gained, 75 * MS)
        self.assertLess(theirs_gained, MS)

    def test_a_step_first_begins_the_second_that_has_passed(self):
        self.open(MIDNIGHT - 2, SECOND // 2)
        self.announce(ntp.STA_INS, 36)
        self.to(3 * SECOND // 2 + 1)
        self.ask(ntp.SETOFFSET | ntp.NANO, sec=0, sub=100 * MS)
        after = MIDNIGHT * SECOND + 100 * MS + 1
        self.assertEqual(self.times(), (after, after - SECOND))
        self.assertEqual(self.both("tai"), (36, 37))

    def test_the_rate_stays_within_10_percent(self):
        self.open(1_700_000_000, SECOND // 2)
        self.ask(ntp.TICK | ntp.FREQUENCY, tick=11_000, freq=32_768_000)
        self.give_offset(500 * MS, 0)
        self.to(600 * MS)
        before = self.times()
        self.to(1_000 * MS)
        theirs, ours = ((b - a) / (400 * MS) for a, b in zip(before, self.times()))
        self.assertAlmostEqual(theirs, 1.2255, delta=0.0001)
        self.assertAlmostEqual(ours, 1.1005, delta=0.000001)

    def test_a_refused_step_changes_nothing(self):
        self.open(1_700_000_000)
        self.give_offset(100 * MS, 6)
        self.assertLess(self.ask(ntp.SETOFFSET | ntp.NANO, sec=-2 * 10**9, sub=0)[0][0], 0)
        self.assertEqual(self.both("offset"), (0, 100 * MS))
        status = ntp.STA_PLL | ntp.STA_NANO
        self.assertEqual(self.both("status"), (status | ntp.STA_UNSYNC, status))

    def test_the_tai_offset_stays_in_its_range(self):
        for status, tai, wrong in [(ntp.STA_DEL, 0, -1), (ntp.STA_INS, 100_000, 100_001)]:
            with self.subTest(tai):
                self.open(MIDNIGHT - 3, SECOND // 2)
                self.announce(status, tai)
                self.to(4 * SECOND)
                theirs, ours = self.times()
                self.assertEqual(theirs, ours)
                self.assertEqual(self.both("tai"), (wrong, tai))
                self.doCleanups()

    def test_a_leap_below_monotonic_isnt_made(self):
        self.open(0, SECOND // 2)
        self.kernel.step = SECOND
        self.announce(ntp.STA_INS, 0)
        self.to((ntp.DAY - 2) * SECOND)
        self.announce(ntp.STA_INS, 0)
        self.to(ntp.DAY * SECOND + FIRST_TICK)
        self.assertEqual(self.times(MONOTONIC), (self.reading,) * 2)
        self.assertEqual(self.times(), (self.reading - SECOND // 2, self.reading + SECOND // 2))
        self.assertEqual(self.ask()[0], (OOP, OOP))

    def test_a_request_is_refused_while_asleep(self):
        self.open(1_700_000_000)
        self.to(SECOND)
        self.kernel.suspend(SECOND)
        self.assertEqual(self.ours.apply(SECOND, SUSPEND), 0)
        self.assertEqual(self.kernel.adjtimex(Timex.of(), SECOND), ERROR)
        self.assertEqual(self.ours.adjtimex(Timex.of(), SECOND)[0], CODES["asleep"])

    def test_a_request_that_is_behind_is_refused(self):
        self.open(1_700_000_000)
        self.to(SECOND + FIRST_TICK)
        self.assertEqual(self.ours.apply(self.reading, UPDATE), 0)
        self.assertEqual(self.kernel.adjtimex(Timex.of(), SECOND - 1), ERROR)
        self.assertEqual(self.ours.adjtimex(Timex.of(), SECOND - 1)[0], CODES["behind"])

    def test_time_before_the_last_offset_counts_as_none(self):
        self.open(1_700_000_000)
        self.give_offset(0, 6)
        self.to(SECOND)
        back = 1_700_000_001 - ntp.DAY
        self.assertEqual(self.kernel.settime(back, 0, SECOND), 0)
        self.assertEqual(self.ours.apply(SECOND, SET_TIME, back, 0), 0)
        self.give_offset(MS, 6)
        theirs, ours = self.both("freq")
        self.assertEqual((round(theirs / 65_536), ours), (-82, 0))

    def test_parts_that_dont_divide_a_second(self):
        self.open(1_700_000_000, hz=300)
        self.to(1000 * SECOND)
        due = 1_700_000_000 * SECOND + self.reading
        theirs, ours = (time - due for time in self.times())
        self.assertAlmostEqual(theirs, 100_000, delta=200)
        self.assertAlmostEqual(ours, 0, delta=200)

    def test_a_tick_of_the_kernel_is_a_number_of_cycles(self):
        described = model.from_hz(64, 3_579_545, 600)
        self.open(1_700_000_000, hz=1000, counter=(64, described.mult, described.shift))
        self.ask(ntp.TICK, tick=10_100)
        self.to(100 * 3_579_545)
        theirs, ours = (time - 1_700_000_101 * SECOND for time in self.times())
        self.assertAlmostEqual(theirs, -127_100, delta=200)
        self.assertAlmostEqual(ours, 0, delta=200)

    def test_a_step_near_the_start_of_a_second_is_avoided(self):
        # a timeline in which such a step put the two clocks into different seconds
        timeline = Timeline(random.Random(1_575_323_327), 250, compiled(self.folder, 250),
                            Library if LIBRARY else Model)
        self.addCleanup(timeline.kernel.close)
        try:
            timeline.run()
        except Known:
            pass


if __name__ == "__main__":
    unittest.main()
