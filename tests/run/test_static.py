"""Programs that no library can be loaded into: static ones, in Go, and with a cleared environment."""
import os
import pathlib
import re
import shutil
import subprocess
import unittest

from runs import (CALLS, CAN_FILTER, CAN_TRACE, LINUX, OTHER, STILL, TKRUN, RunTest, call, needs,
                  needs_root, program, wait_until)

GO = """package main

import (
\t"fmt"
\t"time"
)

func main() {
\tstart := time.Now()
\ttime.Sleep(10 * time.Millisecond)
\tfmt.Println(start.Unix(), time.Since(start) >= 10*time.Millisecond)
}
"""


# stops a wait of the host, and sleeps while it goes on. The wait ends when its file has a byte
STOP = """
mkfifo $1
env -i /usr/bin/python3 -c "import os, select, sys; files = select.poll()
files.register(os.open('$1', os.O_RDWR), select.POLLIN)
sys.exit(not files.poll(10**8))" & process=$!
until read call _ </proc/$process/syscall && [ $call = 7 ]; do :; done
kill -STOP $process
until grep -q 'State:.T' /proc/$process/status; do :; done
kill -CONT $process
sleep 1000
kill -0 $process && echo "it waits"
echo >$1
wait $process
echo $?
"""


@unittest.skipUnless(CAN_FILTER, "the kernel lets no filter ask tkrun")
class Static(RunTest):
    def test_reads_and_sets(self):
        for counter in ["raw", "tsc"]:
            with self.subTest(counter):
                self.assertEqual(self.run_on("--start", 1000000000, "--counter", counter, "--check",
                                             "--", program("static_reads")), "")

    def test_lines(self):
        # in a static program the image reads by lines, and in the other one the library does
        for name in ["static_lines", "lines"]:
            for options in [STILL, ["--hz", 1000], ["--counter", "tsc", "--hz", 1000]]:
                with self.subTest(name, options=options):
                    self.assertEqual(self.run_on(*options, "--", program(name)),
                                     "all reads by lines are those by calls\n")

    def test_no_signal_interrupts_a_read(self):
        # if a record is made, each read is a system call
        for name in ["static_uninterrupted", "uninterrupted"]:
            for options in [[], ["--record", self.folder / "r"]]:
                with self.subTest(name, options=options):
                    self.assertEqual(self.run_on(*options, "--", program(name)), "failed 0\n")

    @unittest.skipUnless(CAN_TRACE, "no process may be traced")
    def test_reads_without_calls(self):
        for counter in ["raw", "tsc"]:
            with self.subTest(counter):
                run = self.start("--start", 1000000000, "--counter", counter, "--",
                                 program("static_killed"), 5)
                counts = re.fullmatch("killed 10, sets [0-9]+, reads ([0-9]+), back 0, errors 0\n",
                                      run.stdout)
                self.assertTrue(counts, run.stdout + run.stderr)
                asked = re.search("at least ([0-9]+) reads", run.stderr)
                self.assertLess(int(asked[1]), int(counts[1]) / 4)

    @unittest.skipUnless(CAN_TRACE, "no process may be traced")
    def test_a_host_whose_vdso_reads_no_clock(self):
        hides = program("novdso")
        options = ["--quiet", "--static", "--start", "1000000000"]
        for command in [[program("reads")], [hides, program("reads")], [program("static_reads")]]:
            with self.subTest(command):
                run = call([hides, TKRUN, *options, "--", *command])
                self.assertEqual((run.returncode, run.stdout, run.stderr), (0, "", ""))

    @unittest.skipUnless(CAN_TRACE, "no process may be traced")
    def test_a_tkrun_inside_whose_vdso_reads_no_clock(self):
        # on the clocks outside, the second would last for a thousand
        inside = [program("novdso"), TKRUN, "--quiet", "--start", "2000000000", "--", "bash", "-c",
                  "sleep 1; date +%s"]
        second = int(self.run_on("--static", "--speed", "0.001", "--", *inside))
        self.assertIn(second, range(2000000001, 2000000060))

    @unittest.skipUnless(CAN_TRACE, "no process may be traced")
    def test_an_image_whose_vdso_reads_no_clock(self):
        run = self.start("--start", 1000000000, "--", program("static_killed"), 5,
                         env={"TKRUN_HOST_CALLS": "1"})
        counts = re.fullmatch("killed 10, sets [0-9]+, reads ([0-9]+), back 0, errors 0\n",
                              run.stdout)
        self.assertTrue(counts, run.stdout + run.stderr)
        asked = re.search("at least ([0-9]+) reads", run.stderr)
        self.assertLess(int(asked[1]), int(counts[1]) / 4)

    def reads_by_calls(self, *command):
        """A program that can't have the image reads and is denied to set the clocks by calls."""
        run = self.start("--static", "--start", 1000000000, "--deny-set", "--", *command, "deny")
        self.assertEqual((run.returncode, run.stdout), (0, ""), run.stderr)

    def test_a_filter_of_the_programs_own(self):
        self.reads_by_calls(program("filtered"), "kill", CALLS["openat"], program("static_reads"))

    @needs_root("changes the root")
    def test_another_root(self):
        shutil.copy(program("static_reads"), self.folder)
        self.reads_by_calls("chroot", self.folder, "/static_reads")

    def test_denied_sets(self):
        self.assertEqual(self.run_on("--start", 1000000000, "--deny-set", "--",
                                     program("static_reads"), "deny"), "")

    def test_steering(self):
        options = ["--counter", "sleeps", "--start", 1000000000]
        self.assertEqual(self.run_on(*options, "--", program("static_steers")), "")
        self.assertEqual(self.run_on(*options, "--deny-set", "--", program("static_steers"),
                                     "deny"), "")

    def test_addresses_that_cannot_be_written(self):
        self.assertEqual(self.run_on("--", program("static_addresses")), "")

    def start_held(self, holds, *arguments, where=""):
        """Starts tkrun with a program that prints "up". Then strace holds up these system calls of
        all threads of tkrun, or of those that are in a system call with this number."""
        run = self.begin(TKRUN, "--quiet", *arguments, stdin=subprocess.PIPE)
        self.assertEqual(run.stdout.readline(), "up\n")
        threads = []
        while not threads:
            threads = [task.name for task in pathlib.Path(f"/proc/{run.pid}/task").iterdir()
                       if (task / "syscall").read_text().startswith(where)]
        self.trace = self.begin("strace", "-o", self.folder / "calls", "-e", f"inject={holds}",
                                *(f"--attach={thread}" for thread in threads),
                                stderr=subprocess.PIPE)
        for _ in threads:
            self.assertIn("attached", self.trace.stderr.readline())
        return run

    def children(self, process):
        return pathlib.Path(f"/proc/{process}/task/{process}/children").read_text().split()

    def is_executed(self, process):
        """Whether a process waits in execve."""
        try:
            return pathlib.Path(f"/proc/{process}/syscall").read_text().startswith("59 ")
        except OSError:  # it has ended
            return False

    @needs("strace")
    @needs_root("chooses the number of a process")
    def test_a_thread_that_is_killed_before_its_answer_is_written(self):
        # each write of tkrun to another process is held up
        run = self.start_held("pwrite64,process_vm_writev:delay_enter=1000ms", "--",
                              program("static_reused"))
        self.assertEqual(run.communicate("\n", 100)[0], "unwritten\n")
        self.assertIn(b"DELAYED", (self.folder / "calls").read_bytes())

    @needs("strace")
    @needs_root("traces tkrun")
    def test_more_programs_than_tkrun_follows_at_once(self):
        # tkrun is held up until most of a thousand programs wait to be executed
        code = "echo up; read; for i in {1..1000}; do env -i /bin/date +%Y & done; wait"
        run = self.start_held("rt_sigtimedwait:delay_enter=100s", "--static", "--start", 0, "--",
                              "bash", "-c", code)
        run.stdin.write("\n")
        run.stdin.flush()
        shell, = self.children(run.pid)
        wait_until(lambda: sum(map(self.is_executed, self.children(shell))) >= 500)
        self.trace.terminate()
        years = run.communicate(timeout=100)[0].split()
        self.assertEqual((len(years), set(years)), (1000, {"1970"}))

    @needs("strace")
    @needs_root("traces tkrun")
    @unittest.skipIf(LINUX < (5, 19), "as in test_calls")
    def test_sleeps_of_which_tkrun_hears_late(self):
        code = f"echo up; read; exec {program('static_interrupted')}"
        run = self.start_held("ioctl:delay_exit=20ms", "--static", *STILL, "--", "bash", "-c", code)
        self.assertEqual((run.communicate("\n", 100)[0], run.returncode), ("", 0))

    @needs("strace")
    @needs_root("traces tkrun")
    def test_a_sleep_of_a_killed_thread_that_ends_during_the_next_one(self):
        # before tkrun sees that the main thread was killed, the program that its process has
        # executed sleeps, and the counter can't move on, since a loop computes
        loop = "i=0; while [ $i -lt 300000 ]; do i=$((i+1)); done"
        code = (f"echo up; read; sleep 3600 & {program('static_left')} exec /usr/bin/env -i "
                f"/bin/sh -c '{loop} & exec sleep 20'; date +%s; kill $! 2>/dev/null")
        run = self.start_held("futex:delay_exit=200ms", "--static", *STILL, "--start", 0, "--",
                              "bash", "-c", code, where="202 ")
        self.assertEqual(run.communicate("\n", 100)[0], "21\n")

    def test_sleeps(self):
        for name in ["nanosleep", "clock_nanosleep", "absolute_sleep", "usleep", "sleep"]:
            with self.subTest(name):
                self.assertEqual(self.run_on("--counter", "sleeps", "--check", "--",
                                             program("static_waits"), name),
                                 f"{name} 2000000001\n")

    def test_a_sleep_until_a_time_ends_by_a_step(self):
        script = self.file("s", "openhz,64,1000000000,1,0,1000,0\nstep,100000000,100,0\n")
        code = "import time; time.sleep(0.3); print(int(time.time()))"
        run = self.start("--static", "--script", script, "--", "env", "-i", "/usr/bin/python3",
                         "-c", code)
        self.assertEqual(run.returncode, 0, run.stderr)
        self.assertIn(int(run.stdout), range(1100, 1200))

    def test_a_signal_ends_a_sleep(self):
        command = f"echo up; exec {program('static_waits')} sleep"
        run = self.begin(TKRUN, "--static", "--quiet", "--speed", 0.001, "--", "bash", "-c",
                         command)
        self.assertEqual(run.stdout.readline(), "up\n")
        run.terminate()
        self.assertEqual(run.wait(100), 143)

    def test_what_a_dynamic_program_starts(self):
        command = ("date +%s; env -i /bin/date +%s; /nowhere/program; "
                   f"{program('static_waits')} sleep")
        run = self.start("--static", "--counter", "sleeps", "--start", 1000000000, "--check", "--",
                         "bash", "-c", command)
        self.assertEqual(run.stdout, "1000000000\n1000000000\nsleep 2000000001\n", run.stderr)
        self.assertEqual(run.returncode, 0)
        self.assertNotIn("reads the host's clocks", run.stderr)

    def test_a_stop_leaves_a_wait_of_the_host(self):
        self.assertEqual(self.run_on("--static", *STILL, "--", "bash", "-c", STOP, "bash",
                                     self.folder / "fifo"), "it waits\n0\n")

    def test_a_tkrun_inside(self):
        inside = f"{TKRUN} --quiet {' '.join(STILL)} --start 2000000000 -- date +%s"
        self.assertEqual(self.run_on("--static", *STILL, "--start", 1000000000, "--", "bash", "-c",
                                     f"{inside}; env -i date +%s"), "2000000000\n1000000000\n")

    def test_a_filter_inside_a_filter(self):
        run = self.start("--static", "--quiet", "--", TKRUN, "--static", "--", "date")
        self.assertEqual((run.returncode, run.stdout), (125, ""))
        self.assertIn("--static: the kernel lets no filter ask tkrun", run.stderr)

    def test_programs_that_are_killed_when_they_start(self):
        # at most 0.9 ms later
        kill = "read -t 0.000$((RANDOM % 10)) none </dev/zero; kill -9 $!; wait $!"
        run = self.start("--quiet", "--", "bash", "-c", "exec 2>/dev/null; for i in {1..300}; do "
                         f"{program('static_reads')} deny >/dev/null & {kill}; done; exit 0")
        self.assertEqual((run.returncode, run.stderr), (0, ""))

    def log(self, name, *options):
        """The lines of --log, without the number of the process."""
        log = self.folder / name
        self.run_on("--start", 1000000000, *options, "--log", log, "--", program(name))
        lines = [line.split(" ", 1) for line in log.read_text().splitlines()]
        self.assertEqual(len({process for process, _ in lines}), 1)
        return [call for _, call in lines]

    def test_the_log(self):
        # the C library refuses bad fractions of a second itself, and makes one system call of three
        self.assertEqual(self.log("static_reads"), [
            "clock_settime -1.000000000 = EINVAL", "clock_settime 8277292036.000000000 = EINVAL",
            "clock_settime clock 1 = EINVAL", "clock_settime 2147483640.000000005 = 0",
            "clock_settime 2147483840.000000000 = 0", "clock_settime 2147484040.000000000 = 0",
            "settimeofday 2147483840.000000 = 0", "clock_settime 2147483640.000000005 = 0"])

    def test_the_log_of_steering(self):
        # adjtime sets only these fields
        dynamic, static = (
            [(call.split()[1:3], call.split()[-1]) for call in self.log(name, *STILL)]
            for name in ["steers", "static_steers"])
        self.assertEqual(static, dynamic)

    @needs_root("becomes another user")
    def test_another_user(self):
        shared = self.share()
        static = shutil.copy(program("static_waits"), self.folder)
        run = call([*OTHER, shared / "bin/tkrun", "--quiet", "--counter", "sleeps", "--", static,
                    "sleep"])
        self.assertEqual((run.returncode, run.stdout), (0, "sleep 2000000001\n"), run.stderr)

    def test_programs_that_cannot_be_run(self):
        for name, status in [("/nowhere/program", 127), ("no-such-program", 127),
                             ("/etc/passwd", 126), ("/", 126)]:
            run = self.start("--static", "--", name)
            self.assertEqual((run.returncode, len(run.stderr.splitlines())), (status, 1))

    @needs("go")
    def test_go(self):
        source = self.file("main.go", GO)
        subprocess.run(["go", "build", "-o", self.folder / "program", source], check=True,
                       env={**os.environ, "CGO_ENABLED": "0", "GO111MODULE": "off",
                            "GOCACHE": str(self.folder / "cache"), "GOFLAGS": ""})
        second, is_later = self.run_on("--start", 2147483648, "--",
                                       self.folder / "program").split()
        self.assertIn(int(second), range(2147483648, 2147483708))
        self.assertEqual(is_later, "true")
