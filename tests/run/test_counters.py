"""Waits on counters that wrap, are slow, or run at another rate than the clocks believe."""
import time
import unittest

from runs import CAN_FILTER, STILL, RunTest, program

CODE = """use Time::HiRes qw(clock_gettime sleep CLOCK_MONOTONIC);
$a = clock_gettime(CLOCK_MONOTONIC); sleep $ARGV[0];
printf '%.6f', clock_gettime(CLOCK_MONOTONIC) - $a"""


class Counters(RunTest):
    def slept(self, span, *options):
        """By how much MONOTONIC moves on during a sleep. The record is checked."""
        return float(self.run_on(*options, "--check", "--", "/usr/bin/perl", "-e", CODE, span))

    def test_counters_of_sleeps(self):
        for bits, hz, span in [(8, 1000, 10), (16, 32768, 1000), (64, 1, 100), (32, 10**9, 3600)]:
            with self.subTest(bits=bits, hz=hz):
                # a sleep ends at the first reading at which the clock is past its time
                self.assertEqual(self.slept(span, "--counter", "sleeps", "--bits", bits,
                                            "--hz", hz), round(span + 1 / hz, 6))

    def test_counters_that_run(self):
        for span, speed, *options in [(12, 10, "--bits", 32),  # wraps after 4.3 s
                                      (50, 50, "--bits", 24, "--hz", 10**6, "--counter", "tsc"),
                                      (1, 1, "--hz", 32768, "--error-ppm", 500),
                                      (0.5, 0.5)]:
            with self.subTest(speed=speed, options=options):
                slept = self.slept(span, "--speed", speed, *options)
                self.assertGreaterEqual(slept, span)
                self.assertLess(slept, span + 5 * speed)  # 5 s of the host, on a busy machine

    def test_an_uptime(self):
        code = """use Time::HiRes qw(clock_gettime CLOCK_MONOTONIC CLOCK_BOOTTIME CLOCK_REALTIME);
        printf '%.3f %.3f %.3f', map { clock_gettime($_) } CLOCK_MONOTONIC, CLOCK_BOOTTIME,
        CLOCK_REALTIME"""
        for options in [[], ["--bits", 16, "--hz", 32768], ["--bits", 8, "--hz", 1000]]:
            with self.subTest(options=options):
                self.assertEqual(self.run_on("--counter", "sleeps", *options, "--uptime", 3600.25,
                                             "--start", "5000.5", "--check", "--", "/usr/bin/perl",
                                             "-e", code), "3600.250 3600.250 5000.500")
                record = self.folder / "r"
                self.run_on("--counter", "sleeps", *options, "--uptime", "946079998.5",
                            "--start", "8277292035.5", "--record", record, "--check", "--", "sleep",
                            "1")
                # a record opens the same clocks as the options
                self.assertEqual(record.read_text().split(",")[0], "openwords")
                self.assertEqual(
                    self.run_on("--counter", "sleeps", "--script", record, "--check", "--",
                                "/usr/bin/perl", "-e", code),
                    "946079998.500 946079998.500 8277292035.500")

    def test_a_frequency_and_a_tick(self):
        script = self.file("s", "openhz,64,1000000000,1,0,0,0\nfreq,0,32768000\n"
                                "tick,1000000000,11000\n")
        options = ["--script", script, "--counter", "sleeps"]
        command = ["--", "/usr/bin/perl", "-e", CODE, 100]
        self.assertEqual(float(self.run_on(*options, *command)), 100)
        run = self.start(*options, "--check", *command)
        self.assertEqual((run.returncode, float(run.stdout)), (0, 100), run.stderr)

    def test_coarse_clocks_of_a_counter_that_wraps(self):
        # once the counter has passed half of its range, 0 is a later reading
        options = ["--bits", 32, "--hz", 10**9, "--maxsec", 1, "--start", "1000000000.5"]
        code = """use Time::HiRes qw(clock_gettime sleep);
            syscall(159, my $t = pack('L x4 q25', 0));
            for (1..20) { sleep 0.3; clock_gettime(5) }"""
        run = self.start("--counter", "sleeps", *options, "--check", "--", "/usr/bin/perl", "-e",
                         code)
        self.assertEqual(run.returncode, 0, run.stderr)

    def clock_after(self, code, *options):
        """MONOTONIC after a command of the shell, in whole seconds, on a counter of sleeps."""
        return int(self.run_on(*STILL, "--start", 0, *options, "--", "bash", "-c",
                               f"{code}; date +%s").splitlines()[-1])

    def test_what_is_left_of_an_alarm(self):
        self.assertEqual(self.run_on(*STILL, "--", program("rests")), "")

    def test_a_lead_over_the_hosts_clock(self):
        for ahead in ["1000.75", "-1000.25", "0.5"]:
            with self.subTest(ahead):
                before = time.time_ns()
                output = self.run_on(*STILL, "--ahead", ahead, "--", "date", "+%s%N")
                host = int(output) - int(float(ahead) * 10**9)
                self.assertLessEqual(before, host)
                self.assertLessEqual(host, time.time_ns())

    def test_a_sleep_that_a_handler_leaves(self):
        self.assertEqual(self.clock_after(f"{program('left')} jump"), 102)

    def test_a_sleep_that_a_child_leaves_during_the_next_one(self):
        self.assertEqual(self.clock_after(f"{program('left')} fork"), 100)

    def test_a_timer_whose_file_is_closed(self):
        self.assertEqual(self.clock_after(f"{program('left')} file"), 3600)

    def test_a_timer_that_no_thread_can_follow(self):
        self.assertEqual(self.run_on(*STILL, "--", program("left"), "alone"), "")

    def test_a_sleep_of_a_process_that_executes_a_program(self):
        left = program("left")
        self.assertEqual(self.clock_after(f"{left} exec sleep 20"), 21)
        self.assertEqual(self.clock_after(f"{left} exec {left} exec sleep 20"), 22)

    def test_an_alarm_of_a_process_that_executes_a_program(self):
        alarm = "exec 2>/dev/null; /usr/bin/perl -e 'alarm 5; exec @ARGV' "
        self.assertEqual(self.clock_after(alarm + "sleep 100"), 5)
        # the parts of its second, too; a wait ends a cycle after its time
        code = alarm.replace("-e 'alarm 5", "-MTime::HiRes=alarm -e 'alarm 5.25") + "sleep 100"
        self.assertEqual(self.run_on(*STILL, "--start", 0, "--", "bash", "-c",
                                     f"{code}; date +%s.%N").splitlines()[-1], "5.250000001")
        code = alarm + "/usr/bin/perl -e 'exit(alarm(0) != 5 || sleep(100) != 100)' || exit"
        self.assertEqual(self.clock_after(code), 100)
        # a child has no alarm
        self.assertEqual(self.clock_after(alarm + "bash -c '(sleep 20) & trap : ALRM; wait; wait'"),
                         20)

    @unittest.skipUnless(CAN_FILTER, "the kernel lets no filter ask tkrun")
    def test_a_sleep_of_a_process_that_executes_a_static_program(self):
        code = f"{program('left')} exec {program('static_waits')} sleep; sleep 20"
        self.assertEqual(self.clock_after(code, "--static"), 23)

    def test_a_stop_that_lasts_longer_than_a_sleep(self):
        code = ("sleep 5 & process=$!; sleep 1; kill -STOP $process; sleep 10; "
                "kill -CONT $process; wait $process")
        self.assertEqual(self.clock_after(code), 11)

    def test_the_rest_of_adjtime_is_only_a_read(self):
        code = "syscall(159, my $t = pack('L x4 q25', 0xa001)); print 1"
        self.assertEqual(self.run_on("--check", "--", "/usr/bin/perl", "-e", code), "1")
