"""Processes of nodes that are killed, at any time: the others go on, and no time of theirs changes."""
import unittest

from node_kills import NodeKillTest
from runs import CAN_FILTER, CAN_TRACE


@unittest.skipUnless(CAN_TRACE, "no process may be traced")
class Kills(NodeKillTest):
    def test_killed_processes(self):
        self.kill(40, 1)

    @unittest.skipUnless(CAN_FILTER, "the kernel lets no filter ask tkrun")
    def test_killed_processes_without_the_library(self):
        self.kill(25, 2, "static_nodes_victim")


if __name__ == "__main__":
    unittest.main()
