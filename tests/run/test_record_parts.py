"""Records in parts: each later part opens with the clocks of the model after the former ones."""
import itertools
import sys

from runs import ROOT, STILL, RunTest, program

sys.path.insert(0, str(ROOT / "tests/model"))

# pylint: disable=wrong-import-position
import model
from ntp import Timex
from steered_clock import Refused, Steered
from steered_session import SteeredSession

# commands of each kind that a record may contain, and one that is refused
PARTS = """openhz,64,1000000000,1,5,1000000000,250000000
tai,1000000000,37
step,600000000000,-1,500000000
tai,600000000000,100001
set,1800000000000,1500000000,1
suspend,2400000000000
resume,3000000000000,86400,7
"""


class RecordParts(RunTest):
    def rows(self, size, *command):
        """Runs tkrun --check with parts of at most `size` bytes. Returns the records of each."""
        run = self.start(*STILL, "--record", self.folder / "r", "--check", *command,
                         env={"TKRUN_PART_BYTES": str(size)})
        self.assertEqual(run.returncode, 0, run.stderr)
        self.assertIn("check: tkcore gives each of the", run.stderr)
        parts = [self.folder / "r"]
        while (part := self.folder / f"r.{len(parts) + 1}").exists():
            parts.append(part)
        self.assertIn(f"in {len(parts)} script", run.stderr)
        return [part.read_text().splitlines() for part in parts]

    def test_a_record_in_parts(self):
        script = self.file("s", PARTS)
        command = ["--script", script, "--", "/usr/bin/perl", "-MTime::HiRes=time", "-e",
                   "for (1..200) { sleep 60; time for 1..5 }"]
        [whole] = self.rows(16777216, *command)
        parts = self.rows(4000, *command)
        self.assertGreater(len(parts), 5)
        self.assertEqual([line for part in parts for line in part[1:]], whole[1:])
        # each later part opens with the clocks of the model after the former ones
        journal, rows = model.parsed("\n".join(whole).encode())
        rows = iter(rows)
        for former, part in zip(parts, parts[1:]):
            for word, (reading, *fields) in itertools.islice(rows, len(former) - 1):
                if word != "get":
                    journal, _ = model.done(journal, word, reading, fields, False)
            words = ["openwords", 64, 2147483648, 31, *model.numbers_of(journal)]
            self.assertEqual(part[0], ",".join(map(str, words)))

    def follow(self, session, word, reading, fields):
        """Carries out a record on steered clocks. A refused one may have let seconds begin."""
        try:
            if word == "get":
                session.advance(reading)
            elif word == "adjtimex":
                session.adjtimex(reading, Timex(*fields))
            else:
                session.apply(reading, word, *fields)
        except Refused:
            pass

    def opening_of(self, session):
        """Returns the record that continues steered clocks."""
        clock = session.clock
        counter = clock.counter.bits, clock.counter.mult, clock.counter.shift
        words = clock.words(session.journal.accepted_count())
        numbers = [*counter, *words, clock.frequency, clock.tick, *session.numbers()]
        return ",".join(map(str, ["openwords", *numbers]))

    def opened_session(self, journal, uptime):
        """Returns the steered clocks of a journal's opening, with an uptime in s."""
        opening, session = journal.opening, SteeredSession(journal)
        Steered.__init__(session, opening.counter, opening.reading, opening.real_offset,
                         opening.hz, uptime * model.NANOS)
        return session

    def check_steered_parts(self, uptime):
        """Each later part opens with the steered clocks of the model after the former ones."""
        command = ["--start", 1000000000, "--uptime", uptime, "--", program("orders"), 300]
        [whole] = self.rows(16777216, *command)
        parts = self.rows(2000, *command)
        self.assertGreater(len(parts), 10)
        self.assertEqual([line for part in parts for line in part[1:]], whole[1:])
        opening = "open,64,2147483648,31,0,1000000000,0,250"
        journal, rows = model.parsed("\n".join([opening, *whole[1:]]).encode())
        session, rows = self.opened_session(journal, uptime), iter(rows)
        self.assertEqual(whole[0], self.opening_of(session) if uptime else opening)
        for former, part in zip(parts, parts[1:]):
            for word, (reading, *fields) in itertools.islice(rows, len(former) - 1):
                self.follow(session, word, reading, fields)
            self.assertEqual(part[0], self.opening_of(session))

    def test_a_record_of_steered_clocks_in_parts(self):
        self.check_steered_parts(0)

    def test_a_record_of_steered_clocks_with_an_uptime_in_parts(self):
        self.check_steered_parts(3600)
