"""A counter of sleeps doesn't move while a process computes whose parent has just ended."""
import unittest

from runs import STILL, RunTest, program


class Orphans(RunTest):
    def test_children_of_tkrun(self):
        self.assertEqual(self.run_on(*STILL, "--", program("orphans"), 300), "0\n")

    def test_children_of_another_subreaper(self):
        self.assertEqual(self.run_on(*STILL, "--", program("orphans"), 300, "subreaper"), "0\n")


if __name__ == "__main__":
    unittest.main()
