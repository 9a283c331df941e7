"""Reads by the image and by the library while clocks are published: at the moment between a reader's
two loads of the sequence. And each way in which the image reads, or lets tkrun answer."""
import unittest

from runs import CAN_FILTER, CAN_TRACE, RunTest, program

START = 1000000000


@unittest.skipUnless(CAN_FILTER, "the kernel lets no filter ask tkrun")
@unittest.skipUnless(CAN_TRACE, "no process may be traced")
class Image(RunTest):
    def test_clocks_that_are_set_while_they_are_read(self):
        for name in ["published", "static_published"]:
            with self.subTest(name):
                output = self.run_on("--start", START, "--", program(name))
                if output == "the vDSO has no function to replace\n":
                    self.skipTest("the host's vDSO reads no clocks")
                self.assertEqual(output, "")

    def test_a_copy_whose_clocks_the_test_writes(self):
        self.assertEqual(self.run_on("--start", START, "--", program("image")), "")
