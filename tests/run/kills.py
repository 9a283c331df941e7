"""What the tests that kill processes share."""
import contextlib
import os
import re
import subprocess

from runs import RunTest, program


@contextlib.contextmanager
def busy():
    """Keeps each processor busy with two loops."""
    loops = [subprocess.Popen(["sh", "-c", "while :; do :; done"])
             for _ in range(2 * os.cpu_count())]
    try:
        yield
    finally:
        for loop in loops:
            loop.kill()
            loop.wait()


class KillTest(RunTest):
    def killed(self, name, count):
        """Runs a program that kills processes which set the clocks, and checks that the record
        contains each set that one has made. Returns what tkrun prints."""
        record = self.folder / "r"
        run = self.start("--start", 1000000000, "--every", 1000, "--record", record, "--check",
                         "--", program(name), count)
        self.assertEqual(run.returncode, 0, run.stdout + run.stderr)
        counts = re.fullmatch("killed 200, sets ([0-9]+), reads [0-9]+, back 0, errors 0\n",
                              run.stdout)
        self.assertTrue(counts, run.stdout)
        sets = sum(line.startswith("set,") for part in self.folder.glob("r*")
                   for line in part.read_text().splitlines())
        self.assertGreaterEqual(sets, int(counts[1]))
        for part in self.folder.glob("r*"):
            part.unlink()
        return run.stderr
