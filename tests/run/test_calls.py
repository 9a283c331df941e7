"""Each call that libtkrun.so answers. The expected values are those of the kernel's calls: a wait
of two seconds moves MONOTONIC on by two seconds."""
import os
import re
import unittest

from runs import (CAN_FILTER, CAN_TRACE, LINUX, STILL, TKRUN, RunTest, call, needs_root, program)

WAIT = 2_000_000_000
PAST = WAIT + 1  # on a counter of sleeps: a wait ends when the clock is past its time
WAITS = {"waits": 20, "lock_waits": 15, "timer_waits": 9}  # the waits of each program
SYSTEM_WAITS, OTHERS = 20, 8  # those of system.c and others.c


class Calls(RunTest):
    def test_reads_and_sets(self):
        self.assertEqual(self.run_on("--start", 1000000000, "--", program("reads")), "")

    def test_reads_and_sets_of_the_tsc(self):
        self.assertEqual(
            self.run_on("--start", 1000000000, "--counter", "tsc", "--", program("reads")), "")

    def test_denied_sets(self):
        log = self.folder / "log"
        self.assertEqual(self.run_on("--start", 1000000000, "--deny-set", "--log", log, "--",
                                     program("reads"), "deny"), "")
        lines = log.read_text().splitlines()
        self.assertTrue(any(line.endswith("clock_settime 2147483640.000000005 = EPERM")
                            for line in lines), lines)

    def test_reads_and_sets_are_no_cancellation_points(self):
        for name in ["record", "log"]:
            for counter in [[], STILL]:
                with self.subTest(name, counter=counter):
                    self.assertEqual(self.run_on(*counter, f"--{name}", self.folder / name, "--",
                                                 program("cancelled")), "")

    def test_steering(self):
        options = ["--counter", "sleeps", "--start", 1000000000]
        self.assertEqual(self.run_on(*options, "--", program("steers")), "")
        self.assertEqual(self.run_on(*options, "--deny-set", "--", program("steers"), "deny"), "")

    def test_stamps_of_packets(self):
        for millis, *options in [(50,), (50, "--speed", 10), (50, "--speed", 0.5), (50000, *STILL)]:
            with self.subTest(options):
                self.assertEqual(self.run_on("--start", 1000000000, "--stamps", *options, "--",
                                             program("stamps"), millis), "")
        self.assertEqual(self.run_on("--", program("stamps"), "refused"), "")

    def test_refused_requests_near_the_end_of_realtime(self):
        script = self.file("s", "openhz,64,1000000000,1,0,8277292035,0\nsuspend,0\n"
                                "resume,0,946079900,0\n")
        self.assertEqual(self.run_on(*STILL, "--script", script, "--check", "--",
                                     program("refused")), "")

    def test_a_record_of_steering(self):
        record = self.folder / "r"
        run = self.start("--counter", "sleeps", "--start", 1000000000, "--record", record,
                         "--check", "--", program("steers"))
        self.assertEqual(run.returncode, 0, run.stderr)
        self.assertRegex(run.stderr, "check: tkcore gives each of the [0-9]+ values")
        self.assertGreater(record.read_text().count("\nadjtimex,"), 20)

    def test_a_record_of_steering_with_an_uptime(self):
        run = self.start("--counter", "sleeps", "--start", 1000000000, "--uptime", 60, "--check",
                         "--", program("steers"))
        self.assertEqual(run.returncode, 0, run.stderr)
        self.assertRegex(run.stderr, "check: tkcore gives each of the [0-9]+ values")

    def test_a_long_record_of_steering(self):
        for name in ("steers", "static_steers"):
            run = self.start("--counter", "sleeps", "--start", 1000000000, "--static", "--check", "--",
                             program(name), env={"TKRUN_PART_BYTES": "1000"})
            self.assertEqual(run.returncode, 0, run.stderr)
            self.assertRegex(run.stderr, "in [2-9] scripts")
            self.assertRegex(run.stderr, "check: tkcore gives each of the [0-9]+ values")

    def test_a_long_record_of_negative_numbers(self):
        # each part opens with a phase, a gain and a rest of adjtime below 0
        lines = ["adjtimex modes=0x13 status=1 offset=-5000 freq=-6553600", "adjtime 0 -300000",
                 *["sleep 1 0", "gettime 0"] * 40]
        run = call([TKRUN, *STILL, "--check", "--", program("calls")],
                   input="\n".join(lines) + "\n", env={**os.environ, "TKRUN_PART_BYTES": "1000"})
        self.assertEqual(run.returncode, 0, run.stderr)
        self.assertRegex(run.stderr, "in [0-9][0-9] scripts")

    def waits(self, *arguments, count):
        """Runs a program that prints its waits, and returns how long each was."""
        lines = [line.split() for line in self.run_on("--check", *arguments).splitlines()]
        self.assertEqual(len(lines), count)
        return lines

    def check_exact(self, name, count):
        waits = self.waits("--counter", "sleeps", "--", program(name), count=count)
        for wait, value in waits:
            with self.subTest(wait):
                self.assertEqual(value, str(PAST))

    def check_at_speed(self, name, count):
        waits = self.waits("--speed", 10, "--", program(name), count=count)
        for wait, value in waits:
            with self.subTest(wait):
                self.assertTrue(re.fullmatch(r"\d+", value), value)
                self.assertGreaterEqual(int(value), WAIT)
                # two seconds of the host, on a busy machine
                self.assertLess(int(value), WAIT + 20_000_000_000)

    def test_a_time_that_comes_while_a_mutex_is_locked_again(self):
        # the C library locks it without a time-out, and ends a process for which one has come
        for words in [[], [63]]:
            with self.subTest(words):
                ends = self.run_on(*STILL, "--uptime", 0, "--", program("relocks"), *words)
                self.assertEqual(ends, "normal 0 2 0\nrobust 0 2 0\ninheriting 0 2 0\n")

    def test_waits_on_a_counter_of_sleeps(self):
        for name, count in WAITS.items():
            self.check_exact(name, count)

    def test_waits_on_a_counter_ten_times_as_fast(self):
        for name, count in WAITS.items():
            self.check_at_speed(name, count)

    def test_system_calls_on_a_counter_of_sleeps(self):
        self.check_exact("system", SYSTEM_WAITS)

    def test_system_calls_on_a_counter_ten_times_as_fast(self):
        self.check_at_speed("system", SYSTEM_WAITS)

    def test_calls_of_other_names_and_old_kernels(self):
        self.check_exact("others", OTHERS)
        self.check_at_speed("others", OTHERS)

    def test_waits_of_a_futex_that_the_kernel_refuses(self):
        self.assertEqual(self.run_on("--", program("futexes")), "")

    def test_many_timers_and_threads(self):
        for counter in [["--counter", "sleeps"], ["--speed", 20]]:
            for waiters in ["timers", "threads"]:
                with self.subTest(counter=counter, waiters=waiters):
                    self.assertEqual(self.run_on(*counter, "--", program("many"), waiters),
                                     "ended 1500, early 0\n")

    def test_many_processes(self):
        # the kernel lists the children of a process by pages
        self.assertEqual(self.run_on(*STILL, "--", program("many"), "processes"),
                         "ended 1500, early 0, late 0\n")

    def test_a_step_neither_repeats_nor_loses_an_expiry(self):
        for counter in [["--counter", "sleeps"], ["--speed", 5], ["--speed", 0.5]]:
            with self.subTest(counter=counter):
                self.assertEqual(self.run_on(*counter, "--", program("again")), "")

    def test_timers_for_a_time_that_never_comes(self):
        for options in [STILL, ["--speed", 5]]:
            with self.subTest(options=options):
                self.assertEqual(self.run_on(*options, "--", program("far")), "")

    def test_forks_between_calls_of_timers(self):
        # the program may wait forever, with all signals blocked
        limit = ["timeout", "-s", "KILL", "60"]
        self.assertEqual(self.run_on("--", *limit, program("forks")), "ended\n")

    def test_a_process_with_timers_ends_with_its_last_thread(self):
        for counter in [["--counter", "sleeps"], ["--speed", 20]]:
            with self.subTest(counter=counter):
                self.assertEqual(self.run_on(*counter, "--", program("exits")), "bye\n")

    def test_a_step_ends_waits_for_its_time_and_no_other(self):
        script = self.file("s", "openhz,64,1000000000,1,0,1000,0\nstep,1000000000,100,0\n")
        output = self.run_on("--script", script, "--counter", "sleeps", "--check", "--",
                             program("steps"))
        # REALTIME is 1101 after one second; a span of 2 s ends after 2 s and a cycle
        self.assertEqual(output.splitlines(), [
            "absolute_sleep 1.000000000", "absolute_timerfd 1.000000000", "span 2.000000001",
            "timer_span 2.000000001"])

    def test_a_step_is_seen_by_waits_on_a_running_counter(self):
        script = self.file("s", "openhz,64,1000000000,1,0,1000,0\nstep,1000000000,100,0\n")
        output = self.run_on("--script", script, "--speed", 5, "--", program("steps"))
        ends = {line.split()[0]: float(line.split()[1]) for line in output.splitlines()}
        for name, end in [("absolute_sleep", 1), ("absolute_timerfd", 1), ("span", 2),
                          ("timer_span", 2)]:
            self.assertGreaterEqual(ends[name], end)
            self.assertLess(ends[name], 50)  # when REALTIME is 1050 without the step

    def check_interrupted(self, name):
        self.assertEqual(self.run_on("--counter", "sleeps", "--", program(name)), "")
        # the counter takes 4 s on a busy machine while the host takes 0.8 s
        self.assertEqual(self.run_on("--speed", 5, "--", program(name), 4000), "")

    def test_signals_end_sleeps(self):
        self.check_interrupted("interrupted")

    @unittest.skipUnless(CAN_FILTER, "the kernel lets no filter ask tkrun")
    @unittest.skipIf(LINUX < (5, 19), "a sleep that a signal interrupts stores no remaining time "
                     "before Linux 5.19")
    def test_signals_end_static_sleeps(self):
        self.check_interrupted("static_interrupted")

    @unittest.skipUnless(CAN_FILTER, "the kernel lets no filter ask tkrun")
    @unittest.skipIf(LINUX < (5, 19), "as above")
    @needs_root("has many groups")
    def test_signals_end_static_sleeps_of_a_process_with_many_groups(self):
        # the kernel lists signals after the groups
        groups = ",".join(map(str, range(1000, 2200)))
        run = call(["setpriv", "--groups", groups, TKRUN, *STILL, "--quiet", "--",
                    program("static_interrupted")])
        self.assertEqual((run.returncode, run.stdout, run.stderr), (0, "", ""))

    @unittest.skipUnless(CAN_TRACE, "no process may be traced")
    def test_a_process_that_is_stopped_while_it_has_the_lock(self):
        for counter in [[], STILL]:
            self.check_holder(*counter, "--")
