"""Each wait and timer that tkrun answers, compared with the same program on the host's clocks. On a
counter of sleeps a wait takes its span and one cycle, which is 1 ns here."""
import re
import time
import unittest

from kills import busy
from runs import CAN_FILTER, STILL, RunTest, call, free_port, needs, needs_root, program

NANOS = 10**9
MILLI = 10**6
BUSY = 30 * NANOS  # by how much a busy machine may hold up a program
LEAP = "2016-12-31T23:59:57.5Z"
READS = 1000
WAITS = ["spans", "locks", "locks_futex"]


def parse(text):
    return [line.split() for line in text.splitlines()]


class Spans(RunTest):
    def check_spans(self, name, *arguments):
        """Compares the waits of a program, on the host's clocks, a counter of sleeps, and a
        counter that runs."""
        host = call([program(name), *map(str, arguments)])
        self.assertEqual((host.returncode, host.stderr), (0, ""))
        host = parse(host.stdout)
        still = parse(self.run_on(*STILL, "--", program(name), *arguments))
        fast = parse(self.run_on("--speed", 3, "--", program(name), *arguments))
        self.assertGreater(len(host), 4)
        self.assertEqual(len(still), len(host))
        span, after = arguments[0] * MILLI, (arguments[2:] or [0])[0] * MILLI
        for real, exact, near in zip(host, still, fast):
            with self.subTest(real[0], arguments=arguments):
                is_cut = after and real[1] == "EINTR"
                least = after if is_cut else span
                # the name, the error, the signals and the mask
                self.assertEqual([exact[i] for i in (0, 1, 4, 5)], [real[i] for i in (0, 1, 4, 5)])
                self.assertEqual([near[i] for i in (0, 1, 4, 5)], [real[i] for i in (0, 1, 4, 5)])
                self.assertEqual(int(exact[2]), least + 1)
                self.assertEqual(real[3] == "0", exact[3] == "0")
                if exact[3] != "0":  # in ns or, of select, in us, rounded down
                    self.assertIn(int(exact[3]), (span - least - 1, (span - least - 1) // 1000 * 1000))
                    self.assertLessEqual(abs(int(real[3]) - int(exact[3])), BUSY)
                if not is_cut:
                    self.assertGreaterEqual(int(near[2]), least)
                self.assertLess(int(near[2]), least + 3 * BUSY)

    def test_spans(self):
        for millis in (1500, 250, 1050):
            self.check_spans("spans", millis)

    def test_spans_of_locks(self):
        for millis in (1500, 250, 1050):
            self.check_spans("locks", millis)
            self.check_spans("locks_futex", millis)

    def test_waits_are_not_divided(self):
        # A signal that comes between two parts of a wait wouldn't interrupt it. Each of these waits
        # lasts 15 s of the host. The call that looks whether the time has come may be a second sleep.
        code = " & ".join(f"{program(name)} 1500 >{self.folder}/{name}" for name in WAITS)
        self.run_on("--speed", 0.1, "--", "bash", "-c", f"{code} & wait")
        lines = [line for name in WAITS for line in parse((self.folder / name).read_text())]
        self.assertEqual(len(lines), 40)
        self.assertEqual({line[1] for line in lines}, {"0"})
        self.assertGreaterEqual(min(int(line[2]) for line in lines), 1500 * MILLI)
        self.assertLess(sum(int(line[6]) for line in lines), 1.75 * len(lines))

    def test_interrupted_spans(self):
        # on a busy machine, the signal mustn't come after the span
        self.check_spans("spans", 40_750, "after", 250)

    def test_interrupted_spans_of_locks(self):
        # a lock is waited for to the end
        self.check_spans("locks", 8_250, "after", 250)
        self.check_spans("locks_futex", 8_250, "after", 250)

    def test_fields_of_timers(self):
        host = call([program("fields")])
        still = self.run_on(*STILL, "--", program("fields"))
        self.assertEqual(len(host.stdout.splitlines()), len(still.splitlines()))
        self.assertGreater(len(still.splitlines()), 90)
        for real, exact in zip(host.stdout.splitlines(), still.splitlines()):
            (name, _, times), (own_name, _, own_times) = real.partition("~"), exact.partition("~")
            self.assertEqual(own_name, name)
            for time, own in zip(times.split(), own_times.split()):
                # a rest is at most what the counter of sleeps leaves, without the host's delays
                self.assertEqual(time == "0", own == "0", (real, exact))
                self.assertLessEqual(abs(int(own) - int(time)), BUSY, (real, exact))
        # the spans of fields.c after 0.25 s and a cycle
        self.assertIn("set 0 ~ 99873456788 50987654321", still)
        self.assertIn("setitimer 0 ~ 99873456000 50987654000", still)
        self.assertIn("get 0 ~ 200250000000 0", still)
        self.assertIn("get 0 ~ 299874999999 0", still)

    def test_wrong_arguments(self):
        host = call([program("wrong")])
        self.assertGreater(len(host.stdout.splitlines()), 110)
        self.assertEqual(self.run_on(*STILL, "--", program("wrong")), host.stdout)
        self.assertEqual(self.run_on("--", program("wrong")), host.stdout)

    def test_overruns(self):
        # four expiries, and then one and three, while a signal is blocked: by arithmetic
        expected = ("signals 1 si_overrun 3 getoverrun 3\ngot 1 overrun 0 0\n"
                    "got 1 overrun 2 2\n") * 2 + "got 1 overrun 3 3\ntimerfd 4\ntimerfd 1\n"
        self.assertEqual(self.run_on(*STILL, "--", program("overruns")), expected)


class Moved(RunTest):
    def spans_of(self, *arguments):
        """The spans of the waits for a time of REALTIME, and those of the others."""
        lines = parse(self.run_on(*arguments))
        of_span = {"span", "monotonic_cond", "real_span"}
        self.assertEqual(len(lines), 10)
        return ([int(line[2]) for line in lines if line[0] not in of_span],
                [int(line[2]) for line in lines if line[0] in of_span])

    def test_a_command_ends_the_waits_that_it_passes(self):
        for command in ("settime", "settimeofday", "setoffset", "setoffset_nano"):
            with self.subTest(command):
                times, spans = self.spans_of(*STILL, "--", program("moved"), command)
                self.assertEqual((set(times), set(spans)), ({NANOS // 4 + 1}, {NANOS + 1}))
                times, spans = self.spans_of("--", program("moved"), command)
                for time in times:  # without the command they would take 200 s
                    self.assertGreaterEqual(time, 0)
                    self.assertLess(time, 3 * BUSY)
                for span in spans:
                    self.assertGreaterEqual(span, NANOS)

    def check_leap(self, how, start, ends):
        """Checks the ends of waits until some ms after midnight, in ms since the start. A wait for
        a deleted time ends at the leap, without a cycle."""
        for before in (-1, 100):  # the discipline is asked before the waits, or after
            with self.subTest(how=how, start=start, before=before):
                lines = parse(self.run_on(*STILL, "--start", start, "--", program("moved"), how,
                                          before, *ends))
                self.assertEqual(len(lines), 7 * len(ends))
                for _, time, span in lines:
                    end, is_deleted = ends[int(time)]
                    self.assertEqual(int(span), end * MILLI + (not is_deleted), time)

    def test_an_inserted_second(self):
        # midnight comes after 2.5 s, and once more after 3.5 s
        self.check_leap("insert", LEAP, {
            -1250: (1250, False), -500: (2000, False), 0: (3500, False), 500: (4000, False),
            1250: (4750, False), 86399000: (86402500, False)})

    def test_a_deleted_second(self):
        # 23:59:59 is deleted after 1.5 s
        self.check_leap("delete", LEAP, {
            -1250: (1250, False), -500: (1500, True), 0: (1500, False), 500: (2000, False),
            1250: (2750, False), 86399000: (86400500, False)})

    def check_running_leap(self, how, speed, most, ends):
        """Checks that waits on a running counter end at these ms, and at most so many ns late."""
        for before in (-1, 100):
            lines = parse(self.run_on("--speed", speed, "--start", LEAP, "--", program("moved"),
                                      how, before, *ends))
            self.assertEqual(len(lines), 7 * len(ends))
            for name, time, span in lines:
                with self.subTest(name, how=how, before=before, time=time):
                    # the waits begin a moment after the clocks
                    self.assertGreater(int(span), ends[int(time)] * MILLI - NANOS // 2)
                    self.assertLess(int(span), ends[int(time)] * MILLI + most)

    def test_an_inserted_second_on_a_running_counter(self):
        self.check_running_leap("insert", 0.5, BUSY, {-500: 2000, 0: 3500, 250: 3750})

    def test_a_deleted_second_on_a_running_counter(self):
        # half a second of these clocks takes 2.5 s of the host
        self.check_running_leap("delete", 0.2, NANOS // 2, {0: 1500, 250: 1750})

    def test_a_second_that_can_not_be_deleted_any_more(self):
        # the discipline learns of it when 23:59:59 begins, and deletes that of the next day
        self.check_leap("delete", "2016-12-31T23:59:58.5Z", {
            -1250: (250, False), -500: (1000, False), 0: (1500, False), 500: (2000, False),
            1250: (2750, False), 86399000: (86400500, True)})


class Counters(RunTest):
    def test_many_waits(self):
        # each of them ends at one of 97 times
        for kind in ("poll", "select", "epoll", "sem", "cond", "sleep"):
            for count, how in ((150, "threads"), (60, "processes")):
                with self.subTest(kind, how=how):
                    self.assertEqual(self.run_on(*STILL, "--", program("pollers"), kind, count, how),
                                     f"ended {count}, early 0, late 0\n")

    def test_loops_that_wait_by_looking(self):
        for kind in ("reads", "polls", "selects", "sleeps", "rest"):
            with self.subTest(kind):
                run = self.run_on(*STILL, "--", program("loops"), kind)
                found = re.fullmatch(r"loops [0-9]+, late ([0-9]+)\n", run)
                self.assertTrue(found, run)
                self.assertLess(int(found[1]), 100_001)  # ns: the longest sleep of a loop

    def test_bytes_of_tcp_wait_for_no_answer(self):
        self.assertEqual(self.run_on(*STILL, "--", program("exchanges")),
                         "exchanges 20, took 0\n")

    def test_the_setting_of_tcp_that_a_program_sees(self):
        host = call([program("exchanges"), "settings"])
        self.assertEqual((host.returncode, host.stderr), (0, ""))
        for options in (STILL, []):
            self.assertEqual(self.run_on(*options, "--", program("exchanges"), "settings"),
                             host.stdout)

    @needs_root("starts a process of another user")
    @needs("setpriv")
    def test_a_timer_of_another_user(self):
        shared = self.share()
        run = call([shared / "bin/tkrun", "--quiet", *STILL, "--", "setpriv", "--reuid", "65531",
                    "--regid", "65531", "--clear-groups", "timeout", "5", "true"])
        self.assertEqual((run.returncode, run.stdout, run.stderr), (0, "", ""))

    @needs("chronyd")
    @needs_root("runs chronyd")
    def test_an_hour_of_chronyd(self):
        port = free_port()
        server = self.file("server", "local stratum 1\nallow 127.0.0.0/8\nbindaddress 127.0.0.1\n"
                           f"port {port}\ncmdport 0\npidfile {self.folder}/s\n")
        client = self.file("client", f"server 127.0.0.1 port {port} iburst minpoll 4 maxpoll 4\n"
                           f"port 0\ncmdport 0\npidfile {self.folder}/c\n")
        code = (f"timeout 3600 chronyd -d -x -u root -F 0 -f {server} 2>/dev/null & "
                f"timeout 3600 chronyd -d -u root -F 0 -f {client} 2>/dev/null & "
                "wait; date -u +%FT%T")
        output = self.run_on(*STILL, "--start", "2030-01-01T00:00:00Z", "--", "bash", "-c", code)
        self.assertEqual(output, "2030-01-01T01:00:00\n")


def read_time():
    """The time that the reading of a file of /proc takes at present."""
    start = time.monotonic()
    for _ in range(READS):
        with open("/proc/self/status", encoding="utf-8") as file:
            file.read()
    return (time.monotonic() - start) / READS


class Rates(RunTest):
    def check_rate(self, least, threads, kind, count, how):
        """Lets threads or processes wait for 97 times. The counter must move so often in a second of
        the host, or on a busy machine once while 5 files of each thread are read."""
        before = read_time()
        run = self.start(*STILL, "--", program("pollers"), kind, count, how)
        self.assertEqual((run.returncode, run.stdout), (0, f"ended {count}, early 0, late 0\n"))
        found = re.match(r"tkrun: ([0-9.]+) s of the host; commands: ([0-9]+) accepted", run.stderr)
        self.assertGreaterEqual(int(found[2]), 97)
        busy_least = 1 / (5 * threads * max(before, read_time()))
        self.assertGreater(int(found[2]) / float(found[1]), min(least, busy_least))

    def test_threads(self):
        self.check_rate(20, 400, "poll", 400, "threads")

    def test_processes(self):
        # a process with a timer has another thread
        self.check_rate(50, 100, "poll", 100, "processes")
        for kind in ("timerfd", "timer", "itimer", "alarm"):
            with self.subTest(kind):
                self.check_rate(50, 200, kind, 100, "processes")


class Signals(RunTest):
    def test_signals_next_to_the_ends_of_waits(self):
        # a handler that has run ends the wait, whenever its signal comes
        for options in (STILL, ["--speed", 50]):
            for how in ([], ["taken"]):
                with self.subTest(options, how=how), busy():
                    self.assertEqual(self.run_on(*options, "--", program("alarms"), *how),
                                     "waits 2160, lost 0, wrong 0\n")

    def test_a_program_that_uses_the_signal_itself(self):
        for options in (STILL, ["--speed", 20]):
            with self.subTest(options), busy():
                self.assertEqual(self.run_on(*options, "--", program("alarms"), "own"),
                                 "waits 0, lost 0, wrong 0\n")

    def test_what_the_signal_does_otherwise(self):
        host = call([program("signal63")])
        self.assertEqual((host.returncode, host.stderr), (0, ""))
        self.assertEqual(len(host.stdout.splitlines()), 17)
        for options in (STILL, [], ["--speed", 0.5]):
            with self.subTest(options):
                self.assertEqual(self.run_on(*options, "--", program("signal63")), host.stdout)

    def test_waits_that_are_left(self):
        # after 2 s of each, the next wait takes 100 s
        for how in ("jump", "cancel", "fork", "reset"):
            with self.subTest(how):
                self.assertEqual(self.run_on(*STILL, "--", program("wakes"), how), "102\n")

    @unittest.skipUnless(CAN_FILTER, "the kernel lets no filter ask tkrun")
    def test_a_static_program_that_is_executed_in_a_wait(self):
        # the signal of the wait that was left would end it
        code = (f"sleep 30 & {program('wakes')} exec {program('static_waits')} poll >&2; "
                "echo $?; wait")
        run = self.start("--quiet", "--static", *STILL, "--", "bash", "-c", code)
        self.assertEqual((run.returncode, run.stdout), (0, "0\n"), run.stderr)
