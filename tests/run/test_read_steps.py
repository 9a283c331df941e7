"""--step-after-reads: steps of REALTIME after a number of reads, of all programs of the clocks."""
import shutil
import unittest

from runs import CAN_FILTER, OTHER, STILL, TKRUN, RunTest, call, needs_root, program

COUNTED = program("counted")
CALLS = ["gettime", "coarse", "timeofday", "time", "timespec", "ftime"]
START = 1000


class ReadSteps(RunTest):
    def seconds(self, steps, *command, options=()):
        """The numbers that a program prints, on clocks that start at START."""
        words = [word for step in steps for word in ("--step-after-reads", step)]
        out = self.run_on(*STILL, "--start", START, *words, *options, "--check", "--", *command)
        return list(map(int, out.split()))

    def test_each_call(self):
        for call in CALLS:
            with self.subTest(call=call):
                self.assertEqual(self.seconds(["3:+50"], COUNTED, call, 5), [1000] * 3 + [1050] * 2)
        self.assertEqual(self.seconds(["9:50"], COUNTED, "all", 3), [1000] * 9 + [1050] * 9)

    def test_several_steps_in_the_order_of_their_reads(self):
        steps = ["6:-50.25", "2:+50.75", "4:1", "4:2", "99:7"]
        self.assertEqual(self.seconds(steps, COUNTED, "gettime", 8),
                         [1000] * 2 + [1050] * 2 + [1053] * 2 + [1003] * 2)
        # the first one is refused, since the clocks would be before 1970
        self.assertEqual(self.seconds(["2:-1500", "2:+1000"], COUNTED, "gettime", 3),
                         [1000, 1000, 2000])

    def test_the_first_read_and_the_most_steps(self):
        self.assertEqual(self.seconds([f"{i + 1}:1" for i in range(16)], COUNTED, "time", 18),
                         [*range(1000, 1017), 1016])

    @unittest.skipUnless(CAN_FILTER, "the kernel lets no filter ask tkrun")
    def test_programs_without_the_library(self):
        for command in [[program("static_counted")], ["env", "-i", COUNTED]]:
            for call in ["gettime", "coarse", "timeofday", "time"]:
                with self.subTest(command=command, call=call):
                    self.assertEqual(self.seconds(["3:+50"], *command, call, 5),
                                     [1000] * 3 + [1050] * 2)

    def test_the_reads_of_all_processes_and_threads(self):
        text = f"{COUNTED} time 3; {COUNTED} time 3; {program('static_counted')} time 3"
        self.assertEqual(self.seconds(["4:+50", "7:+1"], "dash", "-c", text),
                         [1000] * 4 + [1050] * 3 + [1051] * 2)
        # a read may have its time, and be counted after the step
        before, = self.seconds(["70000:+50"], COUNTED, "threads", 100000, 1000)
        self.assertTrue(70000 <= before <= 70003, before)

    def test_threads_that_come_to_several_steps_at_once(self):
        # each is made once
        for first in [5000, 20000, 40000]:
            steps = [word for i in range(16) for word in ("--step-after-reads", f"{first + i}:1")]
            text = (f"{COUNTED} threads 60000 0 & {COUNTED} threads 60000 0; wait; "
                    f"{COUNTED} time 1")
            run = self.start("--quiet", *STILL, "--start", START, *steps, "--reads", 1000,
                             "--check", "--", "dash", "-c", text)
            self.assertIn("the record has the first 1000 reads, ", run.stderr)
            self.assertEqual((run.returncode, run.stdout.split()), (0, ["0", "0", f"{START + 16}"]))

    def test_each_node_has_its_own(self):
        options = ["--node", "a,step-after-reads=1:100,step-after-reads=3:100", "--node", "b"]
        text = "; ".join(f"{TKRUN} node {name} -- {COUNTED} time 4" for name in "ab")
        self.assertEqual(self.seconds(["2:-50"], "dash", "-c", f"{COUNTED} time 4; {text}",
                                      options=options),
                         [1000, 1000, 950, 950, 1000, 1100, 1100, 1200] + [1000] * 4)

    def test_a_record_counts_the_same_reads(self):
        # a sleep reads a clock, too
        record = self.folder / "r"
        text = f"{COUNTED} all 2; sleep 1; {COUNTED} all 1"
        self.seconds(["8:50", "14:50"], "dash", "-c", text, options=["--record", record])
        kinds = [line.split(",")[0] for line in record.read_text().splitlines()]
        gets = [i for i, kind in enumerate(kinds) if kind == "get"]
        steps = [i for i, kind in enumerate(kinds) if kind == "step"]
        self.assertEqual(steps, [gets[7] + 1, gets[13] + 1])
        # with fewer reads in the record, all are counted
        self.assertEqual(self.seconds(["3:+50"], COUNTED, "time", 5, options=["--every", 2]),
                         [1000] * 3 + [1050] * 2)
        run = self.start(*STILL, "--start", START, "--step-after-reads", "3:+50", "--reads", 0,
                         "--check", "--", COUNTED, "time", 5)
        self.assertEqual((run.returncode, run.stdout), (0, "1000 1000 1000 1050 1050 \n"))

    def test_with_a_cost(self):
        # each read takes 1 s
        self.assertEqual(self.seconds(["3:+50"], COUNTED, "gettime", 5,
                                      options=["--read-cost", 10**9]),
                         [1000, 1001, 1002, 1053, 1054])

    def test_a_counter_that_runs(self):
        out = self.run_on("--start", START, "--step-after-reads", "3:+500", "--check", "--",
                          COUNTED, "gettime", 5)
        self.assertEqual([int(second) // 500 for second in out.split()], [2] * 3 + [3] * 2)

    def test_it_ends_waits(self):
        # until a time of REALTIME, which the step passes
        code = ("import ctypes, subprocess, time\n"
                f"other = subprocess.Popen(['{COUNTED}', 'time', '200'], stdout=-3)\n"
                "until = (ctypes.c_long * 2)(100000, 0)\n"
                "ctypes.CDLL('libc.so.6').clock_nanosleep(0, 1, until, None)\n"
                "other.wait()\nprint(int(time.time()) // 100000, int(time.monotonic()))")
        for options in [STILL, []]:
            real, mono = map(int, self.run_on(
                *options, "--start", START, "--step-after-reads", "150:99999", "--check", "--",
                "python3", "-c", code).split())
            self.assertEqual(real, 1)
            self.assertLess(mono, 100)

    def test_a_step_that_is_refused(self):
        run = self.start(*STILL, "--start", START, "--step-after-reads", "2:-5000",
                         "--step-after-reads", "3:+5", "--check", "--", COUNTED, "time", 5)
        self.assertEqual((run.returncode, run.stdout), (0, "1000 1000 1000 1005 1005 \n"))
        self.assertIn("1 accepted, 1 refused", run.stderr)

    def test_deny_set_does_not_deny_it(self):
        self.assertEqual(self.seconds(["1:+50"], COUNTED, "time", 2, options=["--deny-set"]),
                         [1000, 1050])

    @needs_root("starts another user's process")
    def test_reads_of_another_user_are_not_counted(self):
        tkrun, copy = self.share() / "bin/tkrun", self.folder / "counted"
        shutil.copy(COUNTED, copy)
        run = call([tkrun, *map(str, STILL), "--start", str(START), "--step-after-reads", "2:+50",
                    "--quiet", "--", "sh", "-c",
                    f"{' '.join(OTHER)} {copy} time 5; {copy} time 4"])
        self.assertEqual(run.stdout, "1000 " * 5 + "\n1000 1000 1050 1050 \n", run.stderr)

    def test_wrong_values(self):
        form = "isn't N:[+-]SEC[.NSEC], with a number N of reads"
        for value in ["", "5", "x:5", ":5", "5:", "0:5", "-1:5", "5:x", "5:1s", "5:--1", " 5:1",
                      "5:+-1", "5:1.", "5:1.0000000001", "5:9223372036", f"{2**63}:1", "5 :1",
                      f"{2**64 + 5}:1"]:
            with self.subTest(value=value):
                made = self.folder / "made"
                run = self.start("--step-after-reads", value, "--", "touch", made)
                self.assertEqual((run.returncode, run.stderr, made.exists()), (
                    2, f"tkrun: --step-after-reads: '{value}' {form}\n", False))
        words = ["--step-after-reads", "1:1"] * 17
        run = self.start(*words, "--", "true")
        self.assertEqual((run.returncode, run.stderr),
                         (2, "tkrun: --step-after-reads: there are more than 16\n"))
        run = self.start("--node", "a,step-after-reads=x", "--", "true")
        self.assertEqual((run.returncode, run.stderr), (
            2, f"tkrun: --node a: --step-after-reads: 'x' {form}\n"))


if __name__ == "__main__":
    unittest.main()
