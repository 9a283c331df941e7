"""Seconds at which the clocks change by themselves, and commands that end sleeps. Leap seconds are by
adjtimex(2), at the end of 2016: REALTIME is at 23:59:59 twice, or never."""
import subprocess
import unittest

from runs import CAN_FILTER, STILL, TKRUN, RunTest, program

MIDNIGHT = 1483228800
DAY = 86400
BEFORE = 10  # the clocks start this many seconds before midnight
FAR = 60     # s: a sleep that no step ends
CYCLE = 1e-9  # s


class Seconds(RunTest):
    PROGRAMS = "calls", "seconds"
    OPTIONS = []

    def listed(self, lines, *options):
        """Starts the calls of these lines on the clocks."""
        run = self.begin(TKRUN, "--quiet", *options, "--", program(self.PROGRAMS[0]),
                         stdin=subprocess.PIPE, stderr=subprocess.PIPE)
        run.stdin.write("\n".join(lines) + "\n")
        run.stdin.flush()
        return run

    def ends(self, lines, *options):
        """MONOTONIC, in s, after each sleep of these lines. All other calls must succeed."""
        output, errors = self.listed(lines, *options).communicate(timeout=100)
        self.assertEqual(errors, "")
        answers = [answer.split() for answer in output.splitlines()]
        self.assertEqual([answer for answer in answers if answer[0] == "-1"], [])
        return [float(answer[2]) for line, answer in zip(lines, answers, strict=True)
                if line.startswith("sleep")]

    def sleeps_over_a_leap(self, status, *times, options):
        """When sleeps until times of REALTIME after midnight end, in s after the leap was asked for,
        without the cycle by which each wait ends later."""
        lines = [f"adjtimex modes=20 maxerror=0 status={status}", "sleep 1 0",
                 *(f"sleep_until 0 {MIDNIGHT + time} 500000000" for time in times)]
        ends = self.ends(lines, "--start", MIDNIGHT - BEFORE, *options)[1:]
        return [round(end - CYCLE, 9) for end in ends]

    def test_sleeps_over_a_leap_second(self):
        # 23:59:58.5 and 00:00:00.5, 01.5 and 02.5
        for status, ends in [(0, [8.5, 10.5, 11.5, 12.5]), (0x11, [8.5, 11.5, 12.5, 13.5]),
                             (0x21, [8.5, 9.5, 10.5, 11.5])]:
            with self.subTest(status):
                self.assertEqual(self.sleeps_over_a_leap(status, -2, 0, 1, 2,
                                                         options=[*STILL, "--check"]), ends)

    def test_a_leap_second_of_clocks_that_are_not_synchronized(self):
        # the bit that asked for it stays, and the next midnight has none
        for status, late in [(0x51, 1), (0x61, -1)]:
            with self.subTest(status):
                self.assertEqual(self.sleeps_over_a_leap(status, -2, 0, DAY, options=STILL),
                                 [8.5, 10.5 + late, 86410.5 + late])

    def test_a_sleep_in_the_inserted_second(self):
        # 23:59:59.5 is first reached before the leap
        self.assertEqual(self.sleeps_over_a_leap(0x11, -1, options=STILL), [9.5])

    def test_a_leap_second_that_is_asked_for_during_a_sleep(self):
        # on a counter that runs, the sleeper has to hear of it: all three at once
        runs = [(late, self.start_late_request(status))
                for status, late in [(0x11, 1), (0x21, -1), (0, 0)]]
        for late, run in runs:
            with self.subTest(late):
                end = float(run.communicate(timeout=100)[0].split()[2])
                self.assertGreaterEqual(end, 3.25 + late)
                # a busy machine may be 1.8 s of the host late. The sleep is shorter than the 10 s
                # after which it looks at the clocks although nothing woke it
                self.assertLess(end, 4 + late)

    def start_late_request(self, status):
        """Starts a program that asks for a leap second while another sleeps over it."""
        calls = program(self.PROGRAMS[0])
        code = (f"echo sleep_until 0 {MIDNIGHT} 250000000 | {calls} & "
                f"echo sleep 0 250000000 | {calls} >/dev/null; "
                f"echo adjtimex modes=20 maxerror=0 status={status} | {calls} >/dev/null; wait")
        return self.begin(TKRUN, "--quiet", *self.OPTIONS, "--speed", 0.4, "--start", MIDNIGHT - 3,
                          "--", "bash", "-c", code)

    def test_reads_while_a_second_begins(self):
        # without a record, a static program reads by the image
        for options in [[], ["--every", 20, "--check", "--record", self.folder / "r"]]:
            for what in ["insert", "delete"]:
                with self.subTest(what, options=options):
                    self.assertEqual(self.run_on(*options, "--", program(self.PROGRAMS[1]), what), "")

    def test_reads_while_the_rate_changes(self):
        self.assertEqual(self.run_on("--every", 3, "--check", "--record", self.folder / "r", "--",
                                     program(self.PROGRAMS[1]), "offset"), "")

    STEPS = ["settime 0 {0} 5", "sys_settime 0 {0} 5", "settimeofday {0} 5", "sys_settimeofday {0} 5",
             "stime {0}", "adjtimex modes=0x100 sec=100 sub=5", "sys_adjtimex modes=0x100 sec=100 sub=5",
             "ntp_adjtime modes=0x2100 sec=100 sub=5", "clock_adjtime 0 modes=0x100 sec=100 sub=5",
             "sys_clock_adjtime 0 modes=0x100 sec=100 sub=5"]

    # these move only TAI
    TAI_STEPS = ["adjtimex modes=0x80 constant=100", "sys_clock_adjtime 0 modes=0x80 constant=100"]

    def test_each_step_ends_the_sleeps_that_it_passes(self):
        # on a counter that runs: all commands at once, each on separate clocks
        for clock, steps in [(0, self.STEPS), (11, self.STEPS + self.TAI_STEPS)]:
            runs = [(step, self.start_stepped(step, clock)) for step in steps]
            for step, run in runs:
                with self.subTest(step=step, clock=clock):
                    answers = run.communicate(timeout=100)[0].split("\n")
                    ends = [float(answer.split()[2]) for answer in answers if "." in answer]
                    self.assertEqual(len(ends), 2, answers)
                    # a sleep that nothing wakes looks at the clocks every 10 s of the host
                    self.assertGreaterEqual(min(ends), 1)
                    self.assertLess(max(ends) - min(ends), 7)

    def start_stepped(self, step, clock):
        """Starts a program that steps REALTIME while another sleeps until a time that it passes."""
        calls, start = program(self.PROGRAMS[0]), 1000000000
        code = (f"echo sleep_until {clock} {start + FAR} 0 | {calls} & echo sleep 1 0 | {calls}; "
                f"echo {step.format(start + 100)} | {calls} | grep -v '\\.'; wait")
        return self.begin(TKRUN, "--quiet", *self.OPTIONS, "--start", start, "--", "bash", "-c", code)


@unittest.skipUnless(CAN_FILTER, "the kernel lets no filter ask tkrun")
class StaticSeconds(Seconds):
    PROGRAMS = "static_calls", "static_seconds"
    OPTIONS = ["--static"]  # bash, which starts them, isn't static
