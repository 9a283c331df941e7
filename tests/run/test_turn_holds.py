"""--seed: threads that keep the turn, end with it or wait otherwise, and processes of other users."""
import os
import pathlib
import subprocess
import unittest

from runs import IS_ROOT, STILL, TKRUN, RunTest, call, needs_mounts, program


class Holds(RunTest):
    def test_a_wait_by_a_call_that_is_not_covered(self):
        for seed in range(3):
            shown = self.run_on(*STILL, "--seed", seed, "--", program("turn_holds"), "blocks")
            self.assertEqual(shown.split(), ["set", "locked", "woken"])

    def test_a_thread_that_spins_ends_turns(self):
        run = self.start("--quiet", *STILL, "--seed", 1, "--", program("turn_holds"), "spins")
        self.assertEqual((run.returncode, run.stdout.split()), (0, ["set", "locked", "woken"]))
        self.assertRegex(run.stderr, r"^tkrun: --seed: 'turn_holds' \(thread [0-9]+\) runs for 5 s "
                         "while others wait for their turn: from now on, the order of threads is the "
                         "host's\n$")

    def test_a_thread_that_computes_alone_keeps_its_turn(self):
        # by the host's time
        code = ("def now(): return float(open('/proc/uptime').read().split()[0])\n"
                "end = now() + 6\nwhile now() < end: sum(range(10**5))")
        self.assertEqual(self.run_on(*STILL, "--seed", 1, "--", "python3", "-c", code), "")

    def test_a_process_that_is_killed_while_it_waits_for_its_turn(self):
        code = "sleep 1 & sleep 1 & kill -9 $!; wait; (sleep 9 & exec sleep 2); echo end"
        for seed in range(4):
            self.assertEqual(self.run_on(*STILL, "--seed", seed, "--", "sh", "-c", code), "end\n")

    @unittest.skipUnless(IS_ROOT, "only root becomes another user")
    def test_a_process_of_another_user_has_turns(self):
        # it can't open the table, so it asks for it; its waits for a time wouldn't end
        shared = self.share()
        code = ("import os, threading\n"
                "def run(n):\n    for _ in range(9): os.sched_yield()\n    print(n, flush=True)\n"
                "all = [threading.Thread(target=run, args=(n,)) for n in range(5)]\n"
                "[t.start() for t in all]; [t.join() for t in all]\n"
                "print(any('/turns' in line for line in open('/proc/self/maps')))")
        python = pathlib.Path("/usr/bin/python3")
        if not python.exists():
            self.skipTest("there is no /usr/bin/python3")
        command = [shared / "bin/tkrun", "--quiet", *STILL, "--seed", "1", "--", "setpriv",
                   "--reuid", "65531", "--regid", "65531", "--clear-groups", python, "-c", code]
        runs = [call(list(map(str, command))) for _ in range(3)]
        for run in runs:
            self.assertEqual((run.returncode, run.stderr), (0, ""))
            self.assertEqual(run.stdout, runs[0].stdout)
        self.assertEqual(runs[0].stdout.splitlines()[-1], "True")

    @needs_mounts("fills /dev/shm")
    def test_without_space_for_the_table_nothing_is_started(self):
        sizes = self.run_on(*STILL, "--", "sh", "-c", "stat -c %b $TKRUN/page $TKRUN/control")
        blocks = sum(map(int, sizes.split())) * 512 // 4096
        command = "mount -t tmpfs -o nr_blocks=$1 tmpfs /dev/shm; shift; exec \"$@\""
        for more, status in [(2, 125), (400, 0)]:
            run = call(["unshare", "-m", "sh", "-c", command, "sh", str(blocks + more), TKRUN,
                        "--quiet", *STILL, "--seed", "1", "--", "echo", "ran"],
                       env={**os.environ, "TMPDIR": "/nowhere"})
            self.assertEqual((run.returncode, run.stdout), (status, "" if status else "ran\n"))
            self.assertEqual(run.stderr, "tkrun: cannot make the table of --seed: "
                             "No space left on device\n" if status else "")

    def test_the_library_of_turns_must_be_there(self):
        shared = self.share()
        (shared / "lib/libtkrun-turns.so").unlink()
        run = subprocess.run([shared / "bin/tkrun", *STILL, "--seed", "1", "--", "true"],
                             capture_output=True, text=True, check=False)
        self.assertEqual(run.returncode, 125)
        self.assertIn("libtkrun-turns.so", run.stderr)
