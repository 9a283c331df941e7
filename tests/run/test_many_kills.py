"""2,000 kills of processes that set the clocks, on a busy machine, and 2,000 of those of nodes."""
import unittest

from kills import KillTest, busy
from node_kills import NodeKillTest
from runs import CAN_FILTER, CAN_TRACE

RUNS = 10  # of 200 kills


class Kills(KillTest):
    def test_killed_writers(self):
        with busy():
            for _ in range(RUNS):
                self.killed("killed", 100)

    @unittest.skipUnless(CAN_FILTER, "the kernel lets no filter ask tkrun")
    def test_killed_static_writers(self):
        with busy():
            for _ in range(RUNS):
                self.killed("static_killed", 100)


@unittest.skipUnless(CAN_TRACE, "no process may be traced")
class NodeKills(NodeKillTest):
    def test_killed_processes(self):
        # some of them held the lock
        self.assertGreater(sum(self.kill(300, seed) for seed in range(10, 15)), 0)

    @unittest.skipUnless(CAN_FILTER, "the kernel lets no filter ask tkrun")
    def test_killed_processes_without_the_library(self):
        for seed in range(20, 22):
            self.kill(250, seed, "static_nodes_victim")
