"""Signals to tkrun: SIGTERM and SIGINT end all processes after a second, and the second one at
once."""
import fcntl
import os
import pathlib
import pty
import signal
import subprocess
import sys
import termios
import time
import unittest

from runs import CAN_TRACE, STILL, TKRUN, RunTest, call, needs, program, wait_until

# executes a program with a SIGINT that is blocked and pending
PENDING = """import os, signal, sys
signal.signal(signal.SIGINT, signal.Handlers({}))
signal.pthread_sigmask(signal.SIG_BLOCK, [signal.SIGINT])
os.kill(os.getpid(), signal.SIGINT)
os.execv(sys.argv[1], sys.argv[1:])
"""

# leaves a child, which gets a SIGHUP, and prints whether a child of that one has got it, too. The
# sleep ends when tkrun has sent all signals: the counter moves only then
LEAVES = """import os, signal, time
print(os.getpid(), flush=True)
signal.pthread_sigmask(signal.SIG_BLOCK, [signal.SIGHUP])
if os.fork():
    os._exit(0)
ends = os.pipe()
if not os.fork():
    os.read(ends[0], 1)
    print(signal.SIGHUP in signal.sigpending(), flush=True)
    os._exit(0)
print("up", flush=True)
signal.sigwait([signal.SIGHUP])
time.sleep(1)
os.write(ends[1], b"a")
os.wait()
"""

SIGTIMEDWAIT = "128"  # the number of rt_sigtimedwait

# these go on after SIGTERM and SIGINT: one waits, and one computes
STUBBORN = ("trap '' TERM INT; (while :; do :; done) & (exec sleep 1000) & echo $!; echo up; "
            "wait; sleep 1000")
EXITS = "trap 'exit 5' TERM; echo up; sleep 1000 & wait"


class Ending(RunTest):
    def begin_up(self, *arguments, signals="--default-signal", tracer=()):
        """Starts tkrun with a program that prints "up" at the end of its lines. Returns these."""
        run = self.begin("env", signals, *tracer, TKRUN, "--quiet", *arguments,
                         stderr=subprocess.PIPE)
        lines = []
        while not lines or lines[-1] != "up\n":
            lines.append(run.stdout.readline())
            self.assertTrue(lines[-1])
        return run, lines[:-1]

    def end(self, run, status):
        """Waits for the end of a run, which ends all its processes: they have its output."""
        output, errors = run.communicate(timeout=100)
        self.assertEqual((output, errors, run.returncode), ("", "", status))

    def test_each_process_is_ended(self):
        for number in [signal.SIGTERM, signal.SIGINT]:
            for counter in [[], STILL]:
                with self.subTest(number=number, counter=counter):
                    run, children = self.begin_up(*counter, "--", "bash", "-c", STUBBORN)
                    start = time.monotonic()
                    run.send_signal(number)
                    self.end(run, 128 + signal.SIGKILL)
                    self.assertGreater(time.monotonic() - start, 0.99)
                    self.assertFalse(pathlib.Path("/proc", children[0].strip()).exists())

    def test_a_child_that_computes(self):
        run, _ = self.begin_up(*STILL, "--", "bash", "-c",
                               "(while :; do :; done) & echo up; sleep 1; wait")
        run.terminate()
        self.end(run, 128 + signal.SIGTERM)

    @unittest.skipUnless(CAN_TRACE, "no process may be traced")
    def test_a_second_signal_ends_all_at_once(self):
        # a tracer lets the second that follows the first signal last for ever
        for first, second in [(signal.SIGTERM, signal.SIGINT), (signal.SIGINT, signal.SIGTERM),
                              (signal.SIGTERM, signal.SIGTERM)]:
            with self.subTest(first=first, second=second):
                run, lines = self.begin_up("--", "bash", "-c", f"echo $PPID; {STUBBORN}",
                                           tracer=[program("held_grace")])
                os.kill(int(lines[0]), first)
                self.assertEqual(run.stdout.readline(), "waits\n")
                os.kill(int(lines[0]), second)
                self.end(run, 128 + signal.SIGKILL)

    @unittest.skipUnless(CAN_TRACE, "no process may be traced")
    def test_an_interruption_neither_ends_nor_renews_the_second(self):
        # a tracer lets the second pass, and the wait fail with EINTR: the next one has no time left
        run, lines = self.begin_up("--", "bash", "-c", f"echo $PPID; {STUBBORN}",
                                   tracer=[program("interrupted_grace")])
        os.kill(int(lines[0]), signal.SIGTERM)
        self.assertEqual(run.stdout.readline(), "0\n")
        self.end(run, 128 + signal.SIGKILL)

    def is_in_grace(self, process):
        """Whether a thread of tkrun other than the first one waits for a signal, for a time."""
        try:
            calls = [(task / "syscall").read_text().split()
                     for task in pathlib.Path(f"/proc/{process}/task").iterdir()
                     if task.name != str(process)]
        except OSError:  # it has ended
            return False
        return any(call[0] == SIGTIMEDWAIT and int(call[3], 16) for call in calls)

    @unittest.skipUnless(CAN_TRACE, "no process may be traced")
    def test_a_stop_of_tkrun_does_not_end_the_second(self):
        run, _ = self.begin_up("--", "bash", "-c", STUBBORN)
        start = time.monotonic()
        run.terminate()
        # on a busy machine the second may be over before it is seen
        wait_until(lambda: run.poll() is not None or self.is_in_grace(run.pid))
        run.send_signal(signal.SIGSTOP)
        if run.returncode is None:
            os.waitid(os.P_PID, run.pid, os.WSTOPPED | os.WEXITED | os.WNOWAIT)
        run.send_signal(signal.SIGCONT)
        self.end(run, 128 + signal.SIGKILL)
        self.assertGreater(time.monotonic() - start, 0.99)

    @unittest.skipUnless(CAN_TRACE, "no process may be traced")
    def test_a_signal_while_the_program_starts(self):
        # it comes before the call that runs the program, at each fifth stop, up to tkrun's own wait
        stop, waits = 0, ""
        while not waits:
            run = call(["env", "--default-signal", program("signal_at"), str(stop), TKRUN,
                        "--quiet", "--", "sleep", "1000"])
            self.assertEqual((run.returncode, run.stderr), (128 + signal.SIGINT, ""), stop)
            waits, stop = run.stdout, stop + 5
        self.assertEqual(waits, "waits\n")

    def test_a_signal_that_is_pending_at_the_start(self):
        # it was sent before tkrun was executed
        made = self.folder / "made"
        for handler, status in [(signal.SIG_IGN, 0), (signal.SIG_DFL, 128 + signal.SIGINT)]:
            with self.subTest(handler):
                made.unlink(missing_ok=True)
                run = call([sys.executable, "-c", PENDING.format(int(handler)), TKRUN, "--quiet",
                            "--", "touch", made])
                self.assertEqual((run.returncode, run.stdout, run.stderr), (status, "", ""))
                self.assertEqual(made.exists(), not status)

    def test_a_signal_that_was_ignored(self):
        # if SIGINT counted, SIGTERM would be the second signal, which only ends
        run, _ = self.begin_up("--", "bash", "-c", EXITS, signals="--ignore-signal=INT")
        run.send_signal(signal.SIGINT)
        run.terminate()
        self.end(run, 5)

    def test_a_program_ends_in_its_own_way(self):
        run, _ = self.begin_up("--", "bash", "-c", EXITS)
        run.terminate()
        self.end(run, 5)

    @needs("/usr/bin/python3")
    def test_a_signal_of_the_terminal_comes_once(self):
        # the terminal sends it to the program, which prints it before tkrun goes on
        controller, terminal = pty.openpty()
        self.addCleanup(os.close, controller)
        self.addCleanup(os.close, terminal)
        code = ("import signal; signals = [signal.SIGINT]; "
                "signal.pthread_sigmask(signal.SIG_BLOCK, signals); print('up', flush=True)\n"
                "while signal.sigwait(signals): print('int', flush=True)")
        run = self.begin("env", "--default-signal", TKRUN, "--quiet", "--", "/usr/bin/python3",
                         "-c", code, stdin=terminal, stderr=subprocess.PIPE,
                         preexec_fn=lambda: fcntl.ioctl(0, termios.TIOCSCTTY, 0))
        self.assertEqual(run.stdout.readline(), "up\n")
        run.send_signal(signal.SIGSTOP)
        os.waitid(os.P_PID, run.pid, os.WSTOPPED)
        os.write(controller, b"\3")
        self.assertEqual(run.stdout.readline(), "int\n")
        run.send_signal(signal.SIGCONT)
        self.end(run, 128 + signal.SIGKILL)

    def test_a_hangup_is_only_passed_on(self):
        run, _ = self.begin_up("--", "bash", "-c",
                               "trap 'echo up; exec sleep 1000' HUP; echo up; sleep 1000 & wait")
        run.send_signal(signal.SIGHUP)
        self.assertEqual(run.stdout.readline(), "up\n")
        # if SIGHUP counted, this would be the second signal, which ends by SIGKILL
        run.terminate()
        self.end(run, 128 + signal.SIGTERM)

    @needs("/usr/bin/python3")
    def test_a_hangup_after_the_program_is_passed_on_to_its_children(self):
        run, lines = self.begin_up(*STILL, "--", "/usr/bin/python3", "-c", LEAVES)
        wait_until(lambda: not pathlib.Path("/proc", lines[0].strip()).exists())
        run.send_signal(signal.SIGHUP)
        output, errors = run.communicate(timeout=100)
        self.assertEqual((output, errors, run.returncode), ("False\n", "", 0))

    def test_a_quit_is_ignored(self):
        # it would end the comparison that follows the run
        run = call(["env", "--default-signal", TKRUN, "--quiet", "--check", "--", "bash", "-c",
                    "kill -QUIT $PPID; sleep 1"])
        self.assertEqual((run.returncode, run.stderr), (0, ""))

    def test_processes_that_a_session_has_left(self):
        run, lines = self.begin_up("--", "bash", "-c", "echo $$; setsid bash -c 'trap \"\" TERM; "
                                   "echo up; while :; do sleep 1000; done' & exit 3")
        wait_until(lambda: not pathlib.Path("/proc", lines[0].strip()).exists())
        run.terminate()
        self.end(run, 3)

    def test_a_process_that_is_stopped_while_it_has_the_lock(self):
        if not CAN_TRACE:
            self.skipTest("no process may be traced")
        for counter in [[], STILL]:
            run = self.begin(TKRUN, "--quiet", *counter, "--", program("held"),
                             stderr=subprocess.PIPE)
            process = int(run.stdout.readline())
            run.terminate()
            run.communicate(timeout=100)
            self.assertEqual(run.returncode, 128 + signal.SIGTERM)
            self.assertFalse(os.path.exists(f"/proc/{process}"))
