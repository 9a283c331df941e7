"""Events on nodes: by `tkrun ctl` in a run and from outside, and by --plan. Each sleep ends 1 ns of
the common counter after its time."""
import os
import socket
import subprocess

from runs import STILL, TKRUN, RunTest, call, needs_mounts, program

SECOND = 10**9
CLOCKS = program("nodes_clocks")
START = 1483228790  # ten seconds before a new year, in UTC
OPTIONS = [*STILL, "--start", str(START), "--node", "a", "--node", "b"]


def line(real, mono):
    """What nodes_clocks prints if REALTIME has moved on by so many ns since the start."""
    return f"{START * SECOND + real} {mono}\n"


class Events(RunTest):
    def script(self, text):
        """A script on the program's clocks. It knows tkrun as $T and nodes_clocks as $P."""
        return ["--", "sh", "-c", f"cd {self.folder}; T={TKRUN} P={CLOCKS}; {text}"]

    def at_fifteen(self, *events):
        """What the clocks of both nodes are after 15 s, if events come after these seconds, by a
        plan and by ctl."""
        show = "sleep $((15 - NOW)); $T node a -- $P; $T node b -- $P; $P"
        plan = self.file("plan", "".join(f"at {second} {event}\n" for second, event in events))
        by_plan = self.run_on(*OPTIONS, "--plan", plan, "--check",
                              *self.script(f"NOW=0; {show}"))
        text, now = "", 0
        for second, event in events:
            text += f"sleep {second - now}; $T ctl {event}; "
            now = second
        by_ctl = self.run_on(*OPTIONS, "--check", *self.script(f"{text} NOW={now}; {show}"))
        return by_plan, by_ctl

    def test_a_step(self):
        now = 15 * SECOND + 1
        for value, nanos in [("+60", 60 * SECOND), ("7", 7 * SECOND), ("-1.5", -1500000000),
                             ("-0.000000001", -1), ("+0.25", 250000000)]:
            by_plan, _ = self.at_fifteen((5, f"a step {value}"))
            self.assertEqual(by_plan, line(now + nanos, now) + line(now, now) * 2)
        by_plan, by_ctl = self.at_fifteen((5, "a step +60"))
        self.assertEqual(by_ctl, line(now + 60 * SECOND + 1, now + 1) + line(now + 1, now + 1) * 2)

    def test_a_frequency(self):
        # the event of ctl comes after a sleep, so 1 ns later, and two sleeps take 2 ns more
        by_plan, by_ctl = self.at_fifteen((5, "b freq 500000"))
        for out, first, now in [(by_plan, 5 * SECOND, 15 * SECOND + 1),
                                (by_ctl, 5 * SECOND + 1, 15 * SECOND + 2)]:
            faster = first + (now - first) * 3 // 2
            self.assertEqual(out, line(now, now) + line(faster, faster) + line(now, now))

    def test_a_suspension(self):
        # BOOTTIME and REALTIME go on by its length at its end, and MONOTONIC doesn't
        by_plan, by_ctl = self.at_fifteen((5, "a suspend 3s"))
        for out, now in [(by_plan, 15 * SECOND + 1), (by_ctl, 15 * SECOND + 2)]:
            self.assertEqual(out, line(now, now - 3 * SECOND) + line(now, now) * 2)

    def test_clocks_that_sleep(self):
        by_plan, by_ctl = self.at_fifteen((5, "a suspend 100.5"))
        self.assertEqual(by_plan.split("\n")[0] + "\n", line(5 * SECOND, 5 * SECOND))
        self.assertEqual(by_ctl.split("\n")[0] + "\n", line(5 * SECOND + 1, 5 * SECOND + 1))

    def test_a_leap_second(self):
        by_plan, by_ctl = self.at_fifteen((5, "a leap"))
        for out, now in [(by_plan, 15 * SECOND + 1), (by_ctl, 15 * SECOND + 2)]:
            self.assertEqual(out, line(now - SECOND, now) + line(now, now) * 2)

    def test_a_leap_second_instead_of_a_deleted_one(self):
        # the request keeps the other bits of the status: STA_FREQHOLD, and not STA_DEL
        self.file("ask.py", "import ctypes, struct, sys\n"
                            "timex = ctypes.create_string_buffer(208)\n"
                            "struct.pack_into('I36xi', timex, 0, *map(int, sys.argv[1:]))\n"
                            "ctypes.CDLL(None).adjtimex(timex)\n"
                            "print(struct.unpack_from('i', timex, 40)[0])\n")
        ask = "$T node a -- python3 ask.py"
        self.assertEqual(self.run_on(*OPTIONS, "--check", *self.script(
            f"{ask} 16 {0x20 | 0x80}; $T ctl a leap; {ask} 0 0; sleep 15; $T node a -- $P")),
            f"{0x20 | 0x80}\n{0x10 | 0x80}\n{line(14 * SECOND + 1, 15 * SECOND + 1)}")

    def test_waits_end_by_the_changed_clocks(self):
        # a sleeps for 10 s: 5 s, a suspension of 3 s, and 5 s of a counter that is twice as fast
        plan = self.file("plan", "# what happens to a\n\nat 5 a suspend 3\nat 8 a freq 1000000\n")
        out = self.run_on(*OPTIONS, "--plan", plan, "--check",
                          *self.script(f"$T node a -- $P {10 * SECOND}; $P"))
        common = 8 * SECOND + (5 * SECOND + 1 + 1) // 2
        self.assertEqual(out, line(0, 0) + line(2 * (common - 8 * SECOND) + 8 * SECOND,
                                                2 * (common - 8 * SECOND) + 5 * SECOND) +
                         line(common, common))

    def test_events_of_one_time_come_in_the_order_of_their_lines(self):
        plan = self.file("plan", "at 2 a step 1\nat 1.5 a suspend 0.5\nat 0 b step 3\n"
                                 "at 2 a suspend 1\n")
        run = self.start(*OPTIONS, "--plan", plan, "--check",
                         *self.script("$T node b -- $P; sleep 4; $T node a -- $P"))
        # the end of the first suspension comes after the lines of its time
        self.assertEqual(run.stdout, line(3 * SECOND, 0) +
                         line(4 * SECOND + 1, 3 * SECOND + 500000001))
        self.assertEqual(run.stderr.count("was refused: TKC_ASLEEP"), 2, run.stderr)
        self.assertIn("tkrun: a: an event at 2.000000000 was refused: TKC_ASLEEP\n", run.stderr)

    def test_a_program_reaches_the_end_of_a_plan(self):
        plan = self.file("plan", "at 1000 a step 1\n")
        self.run_on(*OPTIONS, "--plan", plan, "--", "true")

    def test_records_with_another_frequency(self):
        record = self.folder / "r"
        plan = self.file("plan", "at 2 a freq -500000\n")
        self.run_on(*OPTIONS, "--plan", plan, "--record", record, "--check",
                    *self.script(f"$T node a -- $P {3 * SECOND}"))
        placed = [row.split(",") for row in (self.folder / "r.nodes").read_text().splitlines()]
        self.assertEqual([row[:3] for row in placed if row[0] == "a"],
                         [["a", "0", "0"], ["a", str(2 * SECOND), str(2 * SECOND)]])
        self.assertEqual(int(placed[-1][3]) * 2, 2 ** int(placed[-1][4]))

    def test_running_counters(self):
        plan = self.file("plan", "at 0.01 b step 5000\n")
        for counter in ["raw", "tsc"]:
            out = self.run_on("--counter", counter, "--start", START, "--node", "a", "--node", "b",
                              "--plan", plan, "--check", *self.script(
                                  "$T ctl a step 1000; sleep 0.02; $P; $T node a -- $P; "
                                  "$T node b -- $P; $P"))
            first, a, b, last = [int(row.split()[0]) for row in out.splitlines()]
            self.assertTrue(first <= a - 1000 * SECOND <= last + 1, out)
            self.assertTrue(first <= b - 5000 * SECOND <= last + 1, out)

    def start_waiting(self):
        """Starts a run that prints its folder, and shows the clocks of a when it gets a line."""
        return subprocess.Popen([TKRUN, "--quiet", *OPTIONS, *self.script(
            "echo $TKRUN; read line; $T node a -- $P")], stdin=subprocess.PIPE,
            stdout=subprocess.PIPE, stderr=subprocess.PIPE, text=True)

    def test_from_outside(self):
        with self.start_waiting() as run:
            env = {**os.environ, "TKRUN": run.stdout.readline().strip()}
            asked = [call([TKRUN, "ctl", *event.split()], env=env)
                     for event in ["a step -3", "a suspend x", "c leap"]]
            self.assertEqual(run.communicate("\n", timeout=100), (line(-3 * SECOND, 0), ""))
        self.assertEqual([(ran.returncode, ran.stdout, ran.stderr) for ran in asked],
                         [(0, "", ""),
                          (2, "", "tkrun: ctl: suspend needs seconds: SEC[.NSEC]\n"),
                          (2, "", "tkrun: ctl: there is no node 'c'\n")])

    def test_clients_that_do_not_ask(self):
        with self.start_waiting() as run:
            folder = run.stdout.readline().strip()
            env = {**os.environ, "TKRUN": folder}
            for message in [None, b"", b"\0", b"a step 1\0b", b"\xff" * 1024, b"a" * 5000]:
                with socket.socket(socket.AF_UNIX, socket.SOCK_SEQPACKET) as client:
                    client.connect(f"{folder}/ctl")
                    if message is not None:
                        client.send(message)
            self.assertEqual(call([TKRUN, "ctl", "a", "step", "2"], env=env).returncode, 0)
            out = run.communicate("\n", timeout=100)
        # the text of a message ends at its first 0
        self.assertEqual(out, (line(3 * SECOND, 0), ""))
        self.assertFalse(os.path.exists(folder))

    @needs_mounts("hides /dev/shm")
    def test_the_only_run_is_found(self):
        text = ("mount -t tmpfs tmpfs /dev/shm; unset TKRUN; T=$0; "
                "$T ctl a step 1; "
                "mkfifo w1 w2; exec 8<>w1 9<>w2; "
                "$T --quiet --counter sleeps --node a -- sh -c 'echo up; read l' <w1 >s1 & "
                "until [ -s s1 ]; do :; done; $T ctl a step 1; echo one $?; "
                "$T --quiet --counter sleeps --node a -- sh -c 'echo up; read l' <w2 >s2 & "
                "until [ -s s2 ]; do :; done; $T ctl a step 1; echo two $?; "
                "echo >&8; echo >&9; wait; $T ctl a step 1")
        run = call(["unshare", "-m", "sh", "-c", text, TKRUN], cwd=self.folder,
                   env={**os.environ, "TMPDIR": str(self.folder)})
        self.assertEqual(run.stdout, "one 0\ntwo 2\n")
        none = "tkrun: ctl: there is no run with --node"
        lines = run.stderr.splitlines()
        self.assertEqual([lines[0], lines[-1], len(lines)], [none, none, 3])
        self.assertIn("there are several runs", lines[1])


class Faults(RunTest):
    def test_wrong_lines_of_a_plan(self):
        made = self.folder / "made"
        wrong = {
            "a step 1": "it isn't 'at SEC", "at": "it isn't 'at SEC", "at 1": "it isn't 'at SEC",
            "at x a leap": "'x' isn't a time", "at -1 a leap": "'-1' isn't a time",
            "at 1. a leap": "'1.' isn't a time", "at 1s a leap": "'1s' isn't a time",
            "at 99999999999 a leap": "isn't a time", "at 1 c leap": "there is no node 'c'",
            "at 1  a leap": "there is no node ''", "at 1 a": "'' isn't step, freq",
            "at 1 a jump": "'jump' isn't step, freq", "at 1 a resume 1": "'resume' isn't step",
            "at 1 a step": "step needs", "at 1 a step x": "step needs",
            "at 1 a step --1": "step needs", "at 1 a step 1 2": "step needs",
            "at 1 a step 1s": "step needs", "at 1 a step 1.0000000001": "step needs",
            "at 1 a freq nan": "freq needs", "at 1 a freq 1000001": "freq needs",
            "at 1 a freq": "freq needs", "at 1 a freq 1 ": "freq needs",
            "at 1 a suspend -1": "suspend needs", "at 1 a suspend 1m": "suspend needs",
            "at 1 a suspend": "suspend needs", "at 1 a leap 1": "leap has no value",
        }
        for text, sentence in wrong.items():
            with self.subTest(line=text):
                plan = self.file("plan", f"# a plan\n\nat 1 a leap\n{text}\nat\n")
                run = self.start(*OPTIONS, "--plan", plan, "--", "touch", made)
                self.assertEqual((run.returncode, run.stdout), (2, ""))
                self.assertRegex(run.stderr, r"\Atkrun: --plan: line 4: [^\n]*\n\Z")
                self.assertIn(sentence, run.stderr)
        plan = self.file("plan", "at 1 a freq 1\n")
        run = self.start("--node", "a", "--plan", plan, "--", "touch", made)
        self.assertEqual(run.stderr, "tkrun: --plan: line 1: freq needs --counter sleeps\n")
        for options, sentence in [(["--plan", plan], "--plan needs --node"),
                                  ([*OPTIONS, "--plan", self.folder], "--plan: cannot read"),
                                  ([*OPTIONS, "--plan", "/nowhere/p"], "--plan: cannot read")]:
            run = self.start(*options, "--", "touch", made)
            self.assertEqual((run.returncode, len(run.stderr.splitlines())), (2, 1))
            self.assertIn(sentence, run.stderr)
        self.assertFalse(made.exists())

    def test_wrong_arguments_of_ctl(self):
        for words in [[], ["a"], ["a", "x" * 2000]]:
            run = call([TKRUN, "ctl", *words])
            self.assertEqual((run.returncode, run.stderr), (
                2, "tkrun: tkrun ctl NODE step|freq|suspend|leap [VALUE], or "
                   "tkrun ctl partition|heal NODE NODE\n"))
        run = self.start("--quiet", "--", TKRUN, "ctl", "a", "leap")
        self.assertEqual((run.returncode, run.stderr),
                         (2, "tkrun: ctl: there is no run with --node\n"))

    def test_events_that_the_clocks_refuse(self):
        run = self.start("--quiet", *OPTIONS, "--", "sh", "-c",
                         f"{TKRUN} ctl a suspend 1; {TKRUN} ctl a step 1; {TKRUN} ctl b step -9e9 "
                         f"|| {TKRUN} ctl b step -9000000000")
        self.assertEqual(run.stderr.splitlines(), [
            "tkrun: ctl: a: the clocks refuse it: TKC_ASLEEP",
            "tkrun: ctl: step needs seconds: [+-]SEC[.NSEC]",
            "tkrun: ctl: b: the clocks refuse it: TKC_INVALID"])
        self.assertEqual(run.returncode, 2)
