"""CPython's own tests of its clocks, locks and waits, unmodified, by Debian's python3.11 and its package
libpython3.11-testsuite."""
import pathlib
import tempfile
import unittest

from runs import STILL, RunTest, needs

SUITE = pathlib.Path("/usr/lib/python3.11/test/test_threading.py")

# a loop computes while another thread sleeps, so a counter of sleeps doesn't move
LOOPS = ["-i", "test_can_interrupt_tight_loops"]


@needs("/usr/bin/python3.11")
@unittest.skipUnless(SUITE.exists(), "libpython3.11-testsuite isn't installed")
class Python(RunTest):
    def suite(self, name, *options, ignored=()):
        # a shell starts what it leaves in the background with SIGINT ignored, which these send
        with tempfile.TemporaryDirectory() as folder:
            run = self.start("--quiet", *options, "--", "env", "--default-signal=INT",
                             "/usr/bin/python3.11", "-m", "test", "-W", "--tempdir", folder,
                             *ignored, name)
        self.assertEqual(run.returncode, 0, run.stdout + run.stderr)
        self.assertIn("SUCCESS", run.stdout)

    def test_time(self):
        self.suite("test_time", *STILL)
        self.suite("test_time", "--speed", 2)

    def test_sched(self):
        self.suite("test_sched", *STILL)
        self.suite("test_sched", "--speed", 2)

    def test_selectors(self):
        self.suite("test_selectors", *STILL)

    def test_threading(self):
        self.suite("test_threading", *STILL, ignored=LOOPS)
        self.suite("test_threading")
