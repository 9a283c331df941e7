"""The log of a run with nodes: which node made each call, and names that are too long."""
import re
import unittest

from runs import CAN_FILTER, STILL, TKRUN, RunTest


class NodeLogs(RunTest):
    @unittest.skipUnless(CAN_FILTER, "the kernel lets no filter ask tkrun")
    def test_the_lines_of_a_log_begin_with_the_node(self):
        words = ["--", "sh", "-c", f"T={TKRUN}; date -s @5; $T node a -- date -s @6; "
                                   "$T node b-2 -- date -s @7; $T node a -- env -i date -s @8"]
        nodes = ["--node", "a", "--node", "b-2"]
        log = self.folder / "log"
        self.run_on(*STILL, "--start", 1, *nodes, "--log", log, *words)
        self.assertEqual(re.sub(r"\d+ clock_settime", "PROCESS", log.read_text()),
                         "PROCESS 5.000000000 = 0\na PROCESS 6.000000000 = 0\n"
                         "b-2 PROCESS 7.000000000 = 0\na PROCESS 8.000000000 = 0\n")
        run = self.start("--quiet", *STILL, *nodes, "--log", "/dev/full", *words)
        full = "the log ends before line 1: No space left on device\ntkrun: "
        self.assertEqual(run.stderr, f"tkrun: {full}1 line isn't in the log\n"
                                     f"tkrun: a: {full}a: 2 lines aren't in the log\n"
                                     f"tkrun: b-2: {full}b-2: 1 line isn't in the log\n")

    def test_a_log_whose_name_is_too_long(self):
        folder = self.folder
        while len(str(folder)) < 3900:
            folder /= "x" * 100
        folder.mkdir(parents=True)
        self.assertEqual(self.start("--quiet", "--log", folder / "l", "--", "true").returncode, 0)
        folder /= "x" * (4059 - len(str(folder)))
        folder.mkdir()
        self.assertEqual(self.start("--quiet", "--log", folder / "lo", "--", "true").returncode, 0)
        run = self.start("--log", folder / "log", "--", "touch", self.folder / "made")
        self.assertEqual((run.returncode, run.stderr),
                         (2, f"tkrun: --log: '{folder}/log' is too long a name\n"))
        self.assertFalse((self.folder / "made").exists())


if __name__ == "__main__":
    unittest.main()
