"""--read-cost: each read of a clock moves a counter of sleeps, so programs that spin end. A test
fails by its limit if such a program goes on."""
import ctypes
import os
import pathlib
import re
import subprocess
import unittest

from runs import CAN_FILTER, STILL, TKRUN, RunTest, call, program, wait_until

SECOND = 10**9
PTRACE_SEIZE = 0x4206
SPINS = program("spins")
FINE = [0, 1, 4, 7, 11]  # the clocks that the counter moves at once
COARSE = [5, 6]
UPDATE = 10**7  # ns after which a reader updates the clocks


def coarse_spin(cost, most):
    """The reads of a loop on a coarse clock, and how long it takes: the clock has the time of the
    last update, and a read makes one if that is UPDATE ns ago."""
    cycles = last = reads = 0

    def read():
        nonlocal cycles, last
        value = last
        cycles += cost
        if cycles - last >= UPDATE:
            last = cycles
        return value
    start = now = read()
    while now - start < most:
        now = read()
        reads += 1
    return f"{reads} {now - start}\n"


def status_of(process, name):
    """A value in the status of a process."""
    text = pathlib.Path(f"/proc/{process}/status").read_text()
    return re.search(f"^{name}:\\s*(.*)", text, re.M)[1]


class ReadCost(RunTest):
    def spin(self, *words, cost=1000, spins=SPINS, options=()):
        return self.run_on(*STILL, "--read-cost", cost, *options, "--check", "--", spins, *words)

    def test_a_loop_of_a_second(self):
        self.assertEqual(self.run_on(*STILL, "--read-cost", 1000, "--", SPINS, 1, SECOND),
                         f"{10**6} {SECOND}\n")

    @unittest.skipUnless(CAN_FILTER, "the kernel lets no filter ask tkrun")
    def test_a_server_that_measures_a_counter(self):
        # MariaDB does so when it starts: at most a million reads, until 10 ms have passed
        for command in [[program("calibrates")], [program("static_calibrates")]]:
            for cost in [1000, 300, 999999]:
                reads = -(-10001000 // cost)
                with self.subTest(command=command, cost=cost):
                    self.assertEqual(self.run_on(*STILL, "--start", 5, "--read-cost", cost, "--",
                                                 *command, 10000, 10**6),
                                     f"{reads} {reads * cost // 1000}\n")
        # a thousand reads take 1 us
        self.assertEqual(self.run_on(*STILL, "--start", 5, "--read-cost", 1, "--",
                                     program("calibrates"), 10000, 20000), "20000 20\n")

    def test_each_clock(self):
        for clock in FINE:
            for cost in [7, 1000, 10**9]:
                reads = -(-10**5 // cost)
                with self.subTest(clock=clock, cost=cost):
                    self.assertEqual(self.spin(clock, 10**5, cost=cost),
                                     f"{reads} {reads * cost}\n")
        for clock in COARSE:
            with self.subTest(clock=clock):
                self.assertEqual(self.spin(clock, 25 * 10**6), coarse_spin(1000, 25 * 10**6))

    @unittest.skipUnless(CAN_FILTER, "the kernel lets no filter ask tkrun")
    def test_programs_without_the_library(self):
        for command in [[program("static_spins")], ["env", "-i", SPINS]]:
            for clock in [1, *COARSE]:
                with self.subTest(command=command, clock=clock):
                    expected = (coarse_spin(50000, 25 * 10**6) if clock in COARSE
                                else f"500 {25 * 10**6}\n")
                    self.assertEqual(self.run_on(*STILL, "--read-cost", 50000, "--", *command,
                                                 clock, 25 * 10**6), expected)

    def test_other_counters(self):
        # 1 kHz: a read costs a cycle at least. 16 bits wrap after 65 ms
        self.assertEqual(self.spin(1, SECOND, options=["--hz", 1000]), f"1000 {SECOND}\n")
        self.assertEqual(self.spin(1, SECOND, cost=10000,
                                   options=["--hz", 1000000, "--bits", 16]), f"{10**5} {SECOND}\n")

    def test_it_records_the_reads_that_it_is_told(self):
        record = self.folder / "r"
        for every, count in [(1, 101), (10, 10)]:
            self.spin(1, 10**5, options=["--record", record, "--every", every])
            readings = [int(line.split(",")[1]) for line in record.read_text().splitlines()
                        if line.startswith("get,")]
            self.assertEqual(readings, [1000 * (every * (i + 1) - 1) for i in range(count)])
        run = self.start(*STILL, "--read-cost", 1000, "--record", record, "--reads", 3, "--", SPINS,
                         1, 10**5)
        self.assertIn("the first 3 reads, and not the 98 after them", run.stderr)
        self.assertEqual(record.read_text().count("get,"), 3)

    def test_the_same_run_twice(self):
        texts = []
        for name in ["one", "other"]:
            record = self.folder / name
            self.spin(1, 10**8, options=["--record", record, "--start", 5])
            texts.append(record.read_text())
        self.assertEqual(texts[0], texts[1])

    def test_clocks_that_sleep(self):
        # nothing moves them, and a read updates none
        script = self.file("s", "openhz,64,1000000000,1,0,1000000000,0\nsuspend,0\n")
        text = ("import time\nseen = {time.clock_gettime_ns(i) for i in (0, 5) "
                "for _ in range(20000)}\nprint(*seen)")
        run = self.start(*STILL, "--read-cost", 1000, "--script", script, "--check", "--",
                         "python3", "-c", text)
        self.assertEqual((run.returncode, run.stdout), (0, f"{10**18}\n"))
        self.assertIn("commands: 1 accepted, 0 refused", run.stderr)

    def test_waits_end_while_a_thread_spins(self):
        # it spins until the other thread has slept, whose sleeps read a clock too
        reads, nanos = map(int, self.spin(1, 10**18, 2 * 10**6, 100).split())
        self.assertGreater(nanos, 200 * 10**6 - 10000)
        self.assertLessEqual(abs(nanos - reads * 1000), 110 * 1000)

    def test_a_node_that_spins_is_not_moved(self):
        # it has twice the rate, so its counter may be between two values of the common one
        text = (f"cd {self.folder}; {TKRUN} node a -- {SPINS} 1 {10**8} & "
                "for i in 1 2 3 4 5 6 7 8 9; do sleep 0.002; done; wait")
        reads = -(-10**8 // 1001)
        self.assertEqual(self.run_on(*STILL, "--read-cost", 1001, "--node", "a,error-ppm=1000000",
                                     "--check", "--", "sh", "-c", text),
                         f"{reads} {reads * 1001}\n")

    def test_a_wait_starts_where_another_node_is(self):
        text = f"{TKRUN} node a -- {SPINS} 1 {SECOND}; sleep 0.1; date -u +%s%N"
        out = self.run_on(*STILL, "--start", 0, "--read-cost", 10000, "--node",
                          "a,error-ppm=250000", "--check", "--", "sh", "-c", text)
        self.assertGreaterEqual(int(out.splitlines()[1]), 8 * 10**8)

    def test_a_script_and_an_event_come_while_a_thread_spins(self):
        until = "import time\nwhile time.time() < 900: pass"
        script = self.file("s", "openhz,64,1000000000,1,0,5,0\nset,100000000,1000,0\n")
        self.run_on(*STILL, "--read-cost", 10000, "--script", script, "--check", "--", "python3",
                    "-c", until)
        plan = self.file("plan", "at 0.1 a step 1000\n")
        self.run_on(*STILL, "--start", 5, "--read-cost", 10000, "--node", "a", "--plan", plan,
                    "--check", "--", TKRUN, "node", "a", "--", "python3", "-c", until)

    def test_other_nodes_follow(self):
        # a spins until b, which has half its rate, has slept
        until = ("import os, time\nwhile not os.path.exists('slept'): time.monotonic()\n"
                 "print(time.monotonic_ns())")
        text = (f"cd {self.folder}; T={TKRUN}; "
                f"$T node a -- python3 -c \"{until}\" & $T node b -- sh -c 'sleep 0.2; >slept'; "
                "wait; sleep 10; date -u +%s%N; $T node a -- date -u +%s%N")
        a, now, after = map(int, self.run_on(
            *STILL, "--start", 5, "--read-cost", 10000, "--node", "a,error-ppm=250000",
            "--node", "b,error-ppm=-375000", "--record", self.folder / "r", "--check", "--", "sh",
            "-c", text).split())
        self.assertGreaterEqual(a, 4 * 10**8)
        now, after = now - 5 * SECOND, after - 5 * SECOND
        self.assertGreater(now, 10 * SECOND)
        # if all threads have waited after the program's read, a has moved on by it
        self.assertIn(after, [now * 5 // 4, (now + 10000) * 5 // 4])
        run = call([TKRUN, "merge", self.folder / "r"])
        self.assertEqual((run.returncode, run.stderr), (0, ""))
        self.assertEqual(len(re.findall(",error-ppm,", run.stdout)), 3)

    def test_a_walk_goes_on_while_a_thread_spins(self):
        self.run_on(*STILL, "--read-cost", 1000000, "--node", "a,wander-ppm=5", "--record",
                    self.folder / "r", "--check", "--", TKRUN, "node", "a", "--", SPINS, 1,
                    45 * SECOND)
        lines = [line.split(",") for line in (self.folder / "r.nodes").read_text().splitlines()]
        commons = [int(common) for name, common, *_ in lines if name == "a"]
        self.assertEqual(len(commons), 5)
        self.assertTrue(all(common >= i * 10 * SECOND for i, common in enumerate(commons)))
        self.assertEqual(call([TKRUN, "merge", self.folder / "r"]).stdout.count("error-ppm"), 6)

    def test_an_end_that_tkrun_sees_before_it_can_reap(self):
        # a process that a tracer has to reap first
        record = self.folder / "r"
        run = self.begin(TKRUN, "--quiet", *STILL, "--read-cost", 1000, "--record", record, "--",
                         program("ended"), 5, stdin=subprocess.PIPE)
        process = int(run.stdout.readline())
        if ctypes.CDLL(None).ptrace(PTRACE_SEIZE, process, None, None):
            self.skipTest("the kernel lets the test trace nothing")
        run.stdin.close()
        wait_until(lambda: status_of(process, "State")[0] == "Z")
        switches = int(status_of(run.pid, "voluntary_ctxt_switches"))
        wait_until(lambda: int(status_of(run.pid, "voluntary_ctxt_switches")) > switches + 100)
        os.waitpid(process, 0)
        self.assertEqual(run.wait(), 0)
        lines = record.read_text().splitlines()
        self.assertEqual([line.split(",")[:2] for line in lines[-5:]],
                         [["get", str(i * 1000)] for i in range(5)])

    def test_wrong_values(self):
        for words, sentence in [
                (["--read-cost", "x", *STILL],
                 "--read-cost: 'x' isn't a number from 0 to 1000000000"),
                (["--read-cost", "-1", *STILL], "--read-cost: '-1' isn't"),
                (["--read-cost", "1000000001", *STILL], "--read-cost: '1000000001' isn't"),
                (["--read-cost", "1"], "--read-cost needs --counter sleeps\n")]:
            made = self.folder / "made"
            run = self.start(*words, "--", "touch", made)
            self.assertEqual((run.returncode, run.stderr.count("\n"), made.exists()), (2, 1, False))
            self.assertTrue(run.stderr.startswith(f"tkrun: {sentence}"), run.stderr)
