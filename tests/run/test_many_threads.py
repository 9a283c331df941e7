"""How often a counter of sleeps moves, with many nodes that have many threads."""
import pathlib
import re
import sys
import unittest

from runs import call

BENCH = pathlib.Path(__file__).resolve().parents[2] / "bench/tkrun/nodes"
LEAST = 20  # moves in a second


class Moves(unittest.TestCase):
    def test_eight_nodes_of_fifty_threads(self):
        # of processor time, which depends little on what else the machine does: with a processor of
        # its own, a run needs about as much of the host's time
        run = call([sys.executable, "-B", BENCH, "8", "50"])
        self.assertEqual((run.returncode, run.stderr), (0, ""))
        moves = re.search(r" ([0-9]+) in a second of processor time\n", run.stdout)
        self.assertTrue(moves, run.stdout)
        self.assertGreaterEqual(int(moves[1]), LEAST)


if __name__ == "__main__":
    unittest.main()
