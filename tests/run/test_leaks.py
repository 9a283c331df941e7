"""Files that tkrun and its library open for a call, a program or a signal are closed after it: a limit
of files would otherwise be reached."""
import signal
import subprocess
import unittest

from runs import CAN_FILTER, CAN_TRACE, STILL, TKRUN, RunTest, call, program

# calls of calls.c that open files: of the log, of the record, and of the asking process
CALLS = ["sys_gettime 0", "sys_gettimeofday", "sys_time", "settime 0 1500000000 7",
         "sys_settimeofday 1600000000 8", "adjtimex modes=0", "sys_adjtimex modes=0x2 freq=11",
         "sys_clock_adjtime 0 modes=0x8 esterror=5"]
TIMES = 50
LIMIT = ["bash", "-c", 'ulimit -n 40; exec "$@"', "bash"]


class Leaks(RunTest):
    def test_files_of_calls(self):
        for name in ["calls"] + ["static_calls"] * CAN_FILTER:
            with self.subTest(name):
                run = call([*LIMIT, TKRUN, "--quiet", *STILL, "--start", "1000000000", "--log",
                            self.folder / "log", "--check", "--", program(name)],
                           input="".join(f"{line}\n" for line in CALLS * TIMES))
                self.assertEqual((run.returncode, run.stderr), (0, ""))
                answers = run.stdout.splitlines()
                self.assertEqual(len(answers), len(CALLS) * TIMES)
                self.assertEqual([line for line in answers if line.startswith("-1")], [])

    @unittest.skipUnless(CAN_FILTER and CAN_TRACE, "no process may be traced")
    def test_files_of_programs(self):
        # tkrun can't trace the second kind, and looks at its file
        for words in ["env -i /bin/true", f"{program('traced')} /bin/true"]:
            with self.subTest(words):
                run = call([*LIMIT, TKRUN, "--quiet", "--", "bash", "-c",
                            f"for i in {{1..{TIMES}}}; do {words} || exit; done; echo over"])
                self.assertEqual((run.returncode, run.stdout, run.stderr), (0, "over\n", ""))

    def test_files_of_signals(self):
        code = f"for i in {{1..{TIMES}}}; do sleep 1000 & done; echo up; wait"
        run = self.begin(*LIMIT, TKRUN, "--quiet", "--", "bash", "-c", code,
                         stderr=subprocess.PIPE)
        self.assertEqual(run.stdout.readline(), "up\n")
        run.terminate()
        self.assertEqual(run.communicate(timeout=100), ("", ""))
        self.assertEqual(run.returncode, 128 + signal.SIGTERM)
