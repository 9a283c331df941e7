"""The examples of clusters with servers: redis with sentinels, a lock of redis, and PostgreSQL's
replication through a leap second."""
import datetime
import os
import pathlib
import subprocess
import tempfile
import unittest

from runs import needs
from test_cluster import EXAMPLES, run
from test_postgresql import FOLDERS

ROWS = 11  # that the example of PostgreSQL inserts
LEAP = 5  # s from the first row to the end of the day
DELAY = 3  # s until a standby shows a row


class Sentinel(unittest.TestCase):
    @needs("redis-server")
    @needs("redis-sentinel")
    def test_clocks_that_jump_delay_a_failover(self):
        after = "node 2 is the master after"
        self.assertEqual((0, [f"No clock jumps: {after} less than 25 s",
                              f"Two clocks jump: {after} more than 25 s"], []), run("sentinel"))

    def test_wrong_words(self):
        self.assertEqual((2, [], ["usage: examples/cluster/sentinel"]), run("sentinel", "x"))


class RedisLock(unittest.TestCase):
    @needs("redis-server")
    def test_a_seed_finds_it_and_finds_it_again(self):
        found = run("redis_lock.py", "13-14")
        self.assertEqual((0, [], 1), (found[0], found[2], len(found[1])))
        self.assertRegex(found[1][0], r"^seed 14: both held the lock for [0-9]\.[0-9]{3} ms$")
        self.assertEqual(found, run("redis_lock.py", "14"))

    @needs("redis-server")
    def test_a_seed_is_that_of_the_run(self):
        with tempfile.TemporaryDirectory() as folder:
            words, program = pathlib.Path(folder, "words"), pathlib.Path(folder, "tkrun")
            program.write_text(f'#!/bin/sh\necho "$@" >{words}\nexit 1\n')
            program.chmod(0o755)
            subprocess.run([EXAMPLES / "redis_lock.py", "7"], capture_output=True, check=False,
                           env={**os.environ, "TKRUN_PROGRAM": str(program)})
            self.assertEqual((1, 0), (words.read_text().count("--seed 7"),
                                      words.read_text().count("seed=")))

    def test_wrong_words(self):
        usage = "usage: examples/cluster/redis_lock.py [SEEDS]     such as 7 or 7-20"
        for words in (["x"], ["1-"], ["1-x"]):
            with self.subTest(words):
                self.assertEqual((2, [], [usage]), run("redis_lock.py", *words))


def clock(second, leaps):
    """The clock of a server at a true second since the first row, in s since then."""
    return second - (leaps and second >= LEAP)


def table(standby_leaps):
    """What the example prints: the times and rows, half a second after each row was inserted."""
    first = datetime.datetime(2030, 12, 31, 23, 59, 60 - LEAP)
    for now in range(ROWS):
        shown = 0
        while any(clock(at, standby_leaps) >= clock(shown, True) + DELAY
                  for at in range(shown, now + 1)):
            shown += 1
        seconds = now, clock(now, True), clock(now, standby_leaps)
        true, primary, standby = (f"{first + datetime.timedelta(seconds=it):%T}" for it in seconds)
        yield [true, primary, str(now + 1), standby, str(shown)]


@unittest.skipUnless(FOLDERS, "postgresql isn't installed")
class PostgreSQL(unittest.TestCase):
    def test_a_leap_second(self):
        status, lines, said = run("postgresql")
        self.assertEqual((0, []), (status, said))
        both, one = lines[:ROWS + 3], lines[ROWS + 3:]
        heads = ["", "true      primary   rows  standby   rows"]
        for title, part, leaps in [("Both clocks repeat 23:59:59", both, True),
                                   ("Only the clock of the primary does", one, False)]:
            with self.subTest(title):
                self.assertEqual([heads[0], title, heads[1]], part[:3])
                self.assertEqual(list(table(leaps)), [line.split() for line in part[3:]])

    def test_wrong_words(self):
        self.assertEqual((2, [], ["usage: examples/cluster/postgresql"]), run("postgresql", "x"))


if __name__ == "__main__":
    unittest.main()
