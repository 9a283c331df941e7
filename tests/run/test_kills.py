"""Processes that are killed while they set the clocks. Nothing that they set is lost, and no MONOTONIC
goes back."""
import unittest

from kills import KillTest
from runs import CAN_FILTER, CAN_TRACE


class Kills(KillTest):
    def test_killed_writers(self):
        self.killed("killed", 100)

    @unittest.skipUnless(CAN_TRACE, "no process may be traced")
    def test_writers_killed_at_each_part_of_a_call(self):
        # some of them held the lock
        self.assertRegex(self.killed("stepped", 200), "took over [0-9]+ times from a process")

    @unittest.skipUnless(CAN_FILTER, "the kernel lets no filter ask tkrun")
    def test_killed_static_writers(self):
        self.killed("static_killed", 100)
