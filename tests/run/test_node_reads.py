"""What a read of a clock costs on nodes: as many instructions as without nodes."""
import unittest

from runs import CAN_FILTER, CAN_TRACE, STILL, TKRUN, RunTest, program

NODES = ["--node", "a", "--node", "b,error-ppm=50"]


@unittest.skipUnless(CAN_TRACE, "no process may be traced")
class Reads(RunTest):
    def check(self, name):
        """Compares a program without nodes, outside of nodes, and on each node."""
        alone = self.run_on(*STILL, "--", program(name))
        self.assertRegex(alone, r"\A([0-9]+ [0-9]+\n){7}\Z")
        self.assertEqual(self.run_on(*STILL, *NODES, "--", program(name)), alone)
        for node in "ab":
            self.assertEqual(self.run_on(*STILL, *NODES, "--", TKRUN, "node", node, "--",
                                         program(name)), alone)
        # a read that costs time takes longer, so the numbers show such a difference
        self.assertNotEqual(self.run_on(*STILL, "--read-cost", 1, "--", program(name)), alone)

    def test_reads_by_the_library(self):
        self.check("read_counts")

    @unittest.skipUnless(CAN_FILTER, "the kernel lets no filter ask tkrun")
    def test_reads_by_the_image(self):
        self.check("static_read_counts")


if __name__ == "__main__":
    unittest.main()
