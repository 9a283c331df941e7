"""The kernel's own tests of its clocks, timers, futexes and vDSO (tools/testing/selftests), unmodified.
They come from Debian's package linux-source-6.1, whose archive takes a while to read."""
import pathlib
import re
import subprocess
import unittest

from runs import STILL, RunTest, host_call, unpacked

ARCHIVE = pathlib.Path("/usr/src/linux-source-6.1.tar.xz")
SELFTESTS = "linux-source-6.1/tools/testing/selftests"
FUTEXES = [
    "futex_requeue", "futex_requeue_pi", "futex_requeue_pi_mismatched_ops",
    "futex_requeue_pi_signal_restart", "futex_wait", "futex_wait_private_mapped_file",
    "futex_wait_timeout", "futex_wait_uninitialized_heap", "futex_wait_wouldblock", "futex_waitv"]


@unittest.skipUnless(ARCHIVE.exists(), "linux-source-6.1 isn't installed")
class Kernel(RunTest):
    @classmethod
    def setUpClass(cls):
        cls.sources = unpacked(ARCHIVE, [f"{SELFTESTS}/{name}" for name in (
            "timers", "futex", "vDSO", "kselftest.h")])

    def compiled(self, source, *others):
        """Compiles a test, and returns its path, in the test's folder."""
        folder = self.sources / SELFTESTS
        program = self.folder / pathlib.Path(source).name
        subprocess.run(["gcc", "-O2", "-w", "-D_GNU_SOURCE", f"-I{folder}",
                        f"-I{folder}/futex/include", f"-I{folder}/futex/functional", "-o", program,
                        *(folder / f"{name}.c" for name in (source, *others)), "-lrt", "-lpthread",
                        "-lm", "-ldl"], check=True)
        return program

    def selftest(self, name, *arguments, options):
        """Compiles a test of the timers, and runs it in its folder. Returns its output."""
        return self.succeeds("sh", "-c", 'cd "$(dirname "$0")"; exec "$0" "$@"',
                             self.compiled(f"timers/{name}"), *arguments, options=options)

    def succeeds(self, *command, options):
        run = self.start("--quiet", *options, "--", *command)
        self.assertEqual(run.returncode, 0, run.stdout + run.stderr)
        self.assertNotIn("FAIL", run.stdout)
        self.assertNotIn("not ok", run.stdout)
        return run.stdout

    def script(self, name, code):
        """Makes a program that a test starts."""
        self.file(name, f"#!/bin/sh\n{code}\n").chmod(0o755)

    def test_nanosleep(self):
        self.assertIn("ok 12 CLOCK_TAI", self.selftest("nanosleep", options=STILL))

    def test_inconsistency_check(self):
        for counter in ["raw", "tsc"]:
            with self.subTest(counter):
                report = self.selftest("inconsistency-check", "-t", "2",
                                       options=["--speed", 10, "--counter", counter])
                self.assertIn("ok 12 CLOCK_TAI", report)

    def test_set_tz(self):
        self.assertEqual(self.selftest("set-tz", options=STILL).count("[OK]"), 2)

    def test_steering(self):
        for name in ["valid-adjtimex", "adjtick", "set-tai", "raw_skew"]:
            with self.subTest(name):
                self.assertIn("[OK]", self.selftest(name, options=STILL))

    def test_leap_a_day(self):
        for options in [STILL, ["--speed", 10]]:
            with self.subTest(options):
                self.assertIn("Leap complete", self.selftest("leap-a-day", "-i", "1",
                                                             options=options))

    def test_threadtest(self):
        self.assertIn("[OK]", self.selftest("threadtest", "-t", "5", "-n", "4",
                                            options=["--speed", 5]))

    def test_latencies(self):
        for name in ["nsleep-lat", "set-timer-lat", "mqueue-lat"]:
            with self.subTest(name):
                self.assertIn("[OK]", self.selftest(name, options=STILL))

    def test_leap_seconds_at_random(self):
        self.assertIn("[OK]", self.selftest("leapcrash", options=["--speed", 50]))

    def test_the_year_2038(self):
        # its latencies are measured by test_latencies
        self.compiled("timers/inconsistency-check")
        self.compiled("timers/nanosleep")
        self.script("nsleep-lat", "exit 0")
        report = self.selftest("set-2038", options=["--speed", 20])
        self.assertIn("2038", report)

    def test_changes_of_the_frequency(self):
        # its rates are measured by test_steering
        self.compiled("timers/inconsistency-check").rename(self.folder / "check")
        self.compiled("timers/nanosleep")
        self.script("inconsistency-check", "exec ./check -c 0 -t 5")
        self.script("raw_skew", "exit 0")
        self.assertIn("[OK]", self.selftest("change_skew", options=["--speed", 50]))

    def test_consistency_while_the_frequency_changes(self):
        self.compiled("timers/inconsistency-check")
        self.assertIn("[OK]", self.selftest("skew_consistency", options=["--speed", 100]))

    def test_a_step_of_the_frequency(self):
        self.assertIn("[OK]", self.selftest("freq-step", options=["--speed", 3]))

    def test_a_timer_of_posix_timers(self):
        # its other timers are of processor time, which a busy machine has too little of
        report = self.start("--quiet", "--", self.compiled("timers/posix_timers")).stdout
        self.assertIn("Check itimer real... [OK]", report)

    def test_futexes(self):
        for name in FUTEXES:
            with self.subTest(name):
                report = self.succeeds(self.compiled(f"futex/functional/{name}"), options=STILL)
                self.assertRegex(report, "(?m)^ok 1 ")

    def test_the_vdso(self):
        # what each prints on the host, except for times and processors
        for name, *others in [("vdso_test_abi", "parse_vdso"), ("vdso_test_clock_getres",),
                              ("vdso_test_getcpu", "parse_vdso"), ("vdso_test_correctness",),
                              ("vdso_test_gettimeofday", "parse_vdso")]:
            with self.subTest(name):
                test = self.compiled(f"vDSO/{name}", *(f"vDSO/{other}" for other in others))
                report = self.succeeds(test, options=["--start", 1000000000])
                host = host_call(test)
                # a host without an alarm that wakes it up has no such clocks, and tkrun has
                host = re.sub(r"(_ALARM .*\n)\[OK\]\tNo such clock", r"\1[OK]\tTest Passed", host)
                self.assertEqual(verdicts(report), verdicts(host))
                if name == "vdso_test_gettimeofday":
                    self.assertRegex(report, r"The time is 10000000\d\d\.\d")


def verdicts(report):
    """The lines of a report that say what was tried and what came out."""
    return re.findall(r"^(?:ok \d+|\[(?:RUN|OK|PASS|SKIP)\]|.*: PASS|# Totals).*?(?=\d{3}|:|$)",
                      report, re.MULTILINE)
