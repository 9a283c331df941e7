"""The limit of a test's time."""
import os
import sys

from runs import ROOT, RunTest, call

STUCK = """import time
import unittest

import runs

runs.SECONDS = 0.5


class Stuck(runs.RunTest):
    def test_that_waits_for_ever(self):
        time.sleep(10000)


unittest.main()
"""


class Limits(RunTest):
    def test_a_test_that_waits_for_ever_ends_the_run_and_is_named(self):
        run = call([sys.executable, "-B", self.file("stuck.py", STUCK)],
                   env={**os.environ, "PYTHONPATH": str(ROOT / "tests/run")})
        self.assertEqual(run.returncode, 1)
        self.assertIn("in test_that_waits_for_ever\n", run.stderr)
