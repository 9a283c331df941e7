"""tools/checks/run.py: the limit of time of a check, by how nice it is to others."""
import contextlib
import sys
import unittest

from tools import TOP, Case

sys.path.append(str(TOP / "tools"))
from checks.job import BESIDE, IDLE  # noqa: E402
from checks.run import Run  # noqa: E402


class NoStops:
    """Stands for the signals that end a run."""

    def held(self):
        return contextlib.nullcontext()


class Limits(Case):
    def test_a_check_on_idle_processors_has_twice_the_limit(self):
        run = Run(["check_docs"], TOP, False, NoStops(), 10)
        self.addCleanup(run.work.rmdir)
        for nice, is_limited, limit in [(0, True, 10), (BESIDE, True, 10), (IDLE, True, 20),
                                        (IDLE, False, None)]:
            with self.subTest(nice):
                run.begun.clear()
                run.start("check_docs", "true", nice=nice, is_limited=is_limited)
                job = run.jobs["check_docs"]
                job.process.wait()
                job.output.unlink()
                self.assertEqual(limit, job.limit_sec)


if __name__ == "__main__":
    unittest.main()
