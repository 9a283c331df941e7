"""Waits that no signal of tkrun can end: they are made in parts of at most 100 ms, so that a step of the
clocks is seen. Each lasts its whole span, and returns what it returns in one part."""
import re

from runs import STILL, RunTest, needs_mounts, needs_root, program

MILLIS = 105
WAITS = ["spans", "locks", "locks_futex"]


class Parts(RunTest):
    def waits(self, code, *options):
        """The name, the error and the span in ns of each wait. The programs run at once, after the
        command `code`. A wait on a condition variable may end before its time (POSIX), and does so
        after a part."""
        programs = " & ".join(f"{program(name)} {MILLIS} >{self.folder}/{name}" for name in WAITS)
        self.run_on(*options, "--", *code, "bash", "-c", f"{programs} & wait")
        return [line.split()[:3] for name in WAITS
                for line in (self.folder / name).read_text().splitlines()
                if not re.search("cond|cnd", line)]

    @needs_root("makes a namespace of processes")
    @needs_mounts("makes one of processes")
    def test_system_calls_in_parts(self):
        # each waits for 2 s, which are 105 ms of the host
        output = self.run_on("--speed", 19, "--", "unshare", "--pid", "--fork", program("system"))
        lines = [line.split() for line in output.splitlines()]
        self.assertEqual(len(lines), 20)
        for name, span in lines:
            with self.subTest(name):
                self.assertGreaterEqual(int(span), 2 * 10**9)

    @needs_root("makes a namespace of processes")
    @needs_mounts("makes one of processes")
    def test_waits_in_parts(self):
        whole = self.waits([], *STILL)
        parts = self.waits(["unshare", "--pid", "--fork"])
        self.assertGreater(len(whole), 25)
        self.assertEqual([line[:2] for line in parts], [line[:2] for line in whole])
        for name, _, span in parts:
            with self.subTest(name):
                self.assertGreaterEqual(int(span), MILLIS * 10**6)
