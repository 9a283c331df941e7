"""Programs that would read the host's clocks end the run, or are warnings with --lax."""
import os
import shutil
import subprocess
import unittest

from runs import (CALLS, CAN_FILTER, CAN_TRACE, LIBRARY, OTHER, STILL, TKRUN, RunTest, call, needs,
                  needs_root, program)

START = 1000000000

# a program of 32 bits that ends with status 7
SMALL = ".globl _start\n_start: movl $1, %eax\n movl $7, %ebx\n int $0x80\n"


def builds(*command):
    return not subprocess.run(command, check=False, capture_output=True).returncode


@unittest.skipUnless(CAN_FILTER, "the kernel lets no filter ask tkrun")
@unittest.skipUnless(CAN_TRACE, "no process may be traced")
class Uncovered(RunTest):
    """Each of these would read the host's clocks."""

    def ends(self, pattern, *command):
        """The run ends with status 4 and a line, also with --quiet. With --lax it is a warning."""
        run = self.start("--quiet", "--", "bash", "-c", '"$@"; sleep 600', "bash", *command)
        self.assertEqual((run.returncode, run.stdout), (4, ""), run.stderr)
        lines = [line for line in run.stderr.splitlines() if line.startswith("tkrun: ")]
        self.assertEqual(len(lines), 1, run.stderr)
        self.assertRegex(lines[0], pattern)

    def goes_on(self, pattern, *command):
        run = self.start("--quiet", "--lax", "--", "bash", "-c", '"$@"; echo over', "bash",
                         *command)
        self.assertEqual((run.returncode, run.stdout.splitlines()[-1]), (0, "over"), run.stderr)
        self.assertRegex(run.stderr, pattern)
        self.assertEqual(len(run.stderr.splitlines()), 1)

    def test_a_program_of_32_bits(self):
        built = self.folder / "small"
        source = self.file("small.S", SMALL)
        if not builds("gcc", "-m32", "-nostdlib", "-static", "-o", built, source):
            self.skipTest("gcc makes no program of 32 bits")
        if call(["bash", "-c", built]).returncode != 7:
            self.skipTest("the kernel runs no program of 32 bits")
        line = "^tkrun: 'small' .process [0-9]+. reads the host's clocks: it isn't a program for"
        self.ends(line, built)
        self.goes_on(line, built)

    def test_what_cannot_be_traced(self):
        static = program("static_vdso")
        line = f"^tkrun: '{static}' .process [0-9]+. reads the host's clocks: it can't be traced"
        self.ends(line, program("traced"), static)
        self.goes_on(line, program("traced"), static)
        self.ends("^tkrun: '/bin/date' ", program("traced"), "/usr/bin/env", "-i", "/bin/date")

    def test_a_warning_names_each_program_once(self):
        folder, traced = os.path.dirname(program("vdso")), program("traced")
        command = f"cd {folder}; for i in 1 2 3; do {traced} ./static_vdso >&2; done"
        run = self.start("--lax", "--", "bash", "-c", command)
        self.assertEqual(run.stderr.count(f"'{os.path.realpath(folder)}/./static_vdso'"), 1)

    def test_a_warning_names_sixteen_programs(self):
        for number in range(18):
            shutil.copy(program("static_vdso"), self.folder / f"program{number}")
        run = self.start("--quiet", "--lax", "--", "bash", "-c",
                         f"for i in {{0..17}}; do {program('traced')} {self.folder}/program$i; done"
                         " >/dev/null; exit 0")
        lines = run.stderr.splitlines()
        self.assertEqual((run.returncode, len(lines)), (0, 17), run.stderr)
        for number, line in enumerate(lines[:16]):
            self.assertIn(f"{self.folder}/program{number}' (process ", line)
        self.assertEqual(lines[16], "tkrun: 2 more programs read the host's clocks")

    @needs_root("changes the root")
    def test_a_traced_program_that_does_not_find_the_library(self):
        root = self.make_root("sleep")
        self.ends("^tkrun: 'sleep' .process [0-9]+. reads the host's clocks: it hasn't loaded the",
                  program("traced"), "chroot", root, shutil.which("sleep"), "600")

    def test_waits_by_the_hosts_time_are_named(self):
        code = ("import socket, struct; s = socket.socket(); "
                "s.setsockopt(socket.SOL_SOCKET, socket.SO_RCVTIMEO, struct.pack('ll', 1, 0))")
        run = self.start("--quiet", "--", "/usr/bin/python3", "-c", code)
        self.assertEqual((run.returncode, run.stderr), (
            0, "tkrun: SO_RCVTIMEO or SO_SNDTIMEO waits by the host's time\n"))

    def test_system_calls_that_wait_by_the_hosts_time_are_named(self):
        # io_uring_setup, io_getevents, io_pgetevents, and a futex that has another value
        asynchronous = "io_uring or io_getevents waits by the host's time"
        for call_of, warning in [
                ("425, 0, None", asynchronous), ("208, 0, 0, 0, None, None", asynchronous),
                ("333, 0, 0, 0, None, None, None", asynchronous),
                ("202, word, 11, 1, word, word, 0",
                 "FUTEX_WAIT_REQUEUE_PI waited by the host's time")]:
            with self.subTest(call_of):
                code = ("import ctypes; word = (ctypes.c_int64 * 2)(); "
                        f"print(ctypes.CDLL(None).syscall({call_of}))")
                run = self.start("--quiet", "--", "/usr/bin/python3", "-c", code)
                self.assertEqual((run.returncode, run.stdout, run.stderr),
                                 (0, "-1\n", f"tkrun: {warning}\n"))


@unittest.skipUnless(CAN_FILTER, "the kernel lets no filter ask tkrun")
class Untraced(RunTest):
    """Where no process may be traced, the library has the clocks, and tkrun can't cover others."""

    def untraced(self, *command):
        return call([program("filtered"), "deny", CALLS["ptrace"], TKRUN, "--quiet", *STILL,
                     "--start", str(START), "--", *command])

    def test_programs_with_the_library(self):
        for command, output in [(["date", "+%s"], f"{START}\n"), ([program("vdso")], "")]:
            run = self.untraced(*command)
            self.assertEqual((run.returncode, run.stdout, run.stderr), (0, output, ""))

    def test_programs_without_the_library(self):
        for command in [["env", "-i", "/bin/date"], ["bash", "-c", program("static_vdso")]]:
            run = self.untraced(*command)
            self.assertEqual((run.returncode, run.stdout), (4, ""))
            self.assertRegex(run.stderr, "^tkrun: '.*' .process [0-9]+. reads the host's clocks:"
                             " it can't be traced when it is executed\n")


@unittest.skipUnless(CAN_FILTER, "the kernel lets no filter ask tkrun")
@needs_root("becomes another user")
class Unseen(RunTest):
    """Without CAP_SYS_PTRACE, as in some containers, tkrun can't look at other users' processes."""

    def unseen(self, *command, options=()):
        return call(["setpriv", "--bounding-set", "-sys_ptrace", self.share() / "bin/tkrun",
                     "--quiet", *options, "--start", str(START), "--", *OTHER, *command])

    def test_programs_with_the_library(self):
        run = self.unseen("bash", "-c", "date +%Y; sleep 2; date +%Y")
        self.assertEqual((run.returncode, run.stdout, run.stderr), (0, "2001\n2001\n", ""))

    @needs("/usr/bin/python3")
    def test_functions_of_the_c_library(self):
        for counter in ["raw", "tsc", "sleeps"]:
            run = self.unseen("/usr/bin/python3", "-c", LIBRARY, options=["--counter", counter])
            self.assertEqual((run.returncode, run.stderr), (0, ""))
            for second in run.stdout.split():
                self.assertIn(int(second), range(START, START + 100))
            shutil.rmtree(self.folder / "dist")

    def test_programs_without_the_library(self):
        run = self.unseen("env", "-i", "/bin/sh", "-c", "while :; do :; done")
        self.assertEqual((run.returncode, run.stdout), (4, ""))
        # some kernels let CAP_PERFMON look at it
        self.assertRegex(run.stderr, "^tkrun: '.*' .process [0-9]+. reads the host's clocks: it "
                         "(may not be looked at, and may be setuid|hasn't loaded the library)\n$")


class Unfiltered(RunTest):
    """Inside another tkrun, and where no process may install a filter, programs are looked at."""

    def inside(self, *arguments, before=()):
        """Runs a tkrun in both ways, with these words before it, and returns its runs."""
        run = [TKRUN, *map(str, arguments)]
        return [call([*before, TKRUN, "--quiet", "--lax", "--", *run])] * CAN_FILTER + [
            call([*before, program("filtered"), "deny", CALLS["seccomp"], *run])]

    def test_the_library_is_found(self):
        # it is looked at several times
        for run in self.inside("--quiet", "--start", START, "--", "bash", "-c",
                               "sleep 1; date +%Y"):
            self.assertEqual((run.returncode, run.stdout, run.stderr), (0, "2001\n", ""))

    def test_a_program_without_the_library_ends_the_run(self):
        for run in self.inside("--quiet", "--", "env", "-i", "/bin/sleep", "600"):
            self.assertEqual(run.returncode, 4)
            self.assertRegex(run.stderr, "^tkrun: 'sleep' .process [0-9]+. reads the host's clocks:"
                             " it hasn't loaded the library\n$")

    def test_a_library_that_finds_no_clocks(self):
        runs = self.inside("--quiet", "--", "env", "TKRUN=/nowhere", "sleep", "600")
        for run in runs[CAN_FILTER:]:
            self.assertEqual(run.returncode, 4)
            self.assertIn("its library finds no clocks", run.stderr)

    def test_a_program_without_the_library_is_named(self):
        for run in self.inside("--quiet", "--lax", "--", "env", "-i", "/bin/sleep", "2"):
            self.assertEqual(run.returncode, 0)
            self.assertRegex(run.stderr, "^tkrun: 'sleep' .process [0-9]+. reads the host's clocks")

    @needs_root("becomes another user")
    def test_another_user_reads_whatever_the_umask_is(self):
        # no filter lets the library ask tkrun for the files of the clocks
        run = call([program("filtered"), "deny", CALLS["seccomp"], "bash", "-c",
                    'umask 077; exec "$@"', "bash", self.share() / "bin/tkrun", "--quiet", *STILL,
                    "--start", str(START), "--", *OTHER, "date", "+%s"])
        self.assertEqual((run.returncode, run.stdout, run.stderr), (0, f"{START}\n", ""))

    def test_a_static_program_is_not_started(self):
        for run in self.inside("--quiet", "--", program("static_vdso")):
            self.assertEqual((run.returncode, run.stdout), (4, ""))
            self.assertRegex(run.stderr, "^tkrun: '.*static_vdso' .process [0-9]+. reads the host's"
                             " clocks: it is static, and the kernel lets no filter ask tkrun: ")

    def test_a_static_program_is_named(self):
        for run in self.inside("--quiet", "--lax", "--", program("static_vdso"))[CAN_FILTER:]:
            self.assertEqual(run.returncode, 1)  # it finds wrong times
            self.assertRegex(run.stderr, "^tkrun: '.*static_vdso' .* reads the host's clocks: it ")

    def test_the_missing_filter_is_named(self):
        for run in self.inside("--", "true"):
            self.assertEqual(run.returncode, 0)
            self.assertIn("tkrun: the kernel lets no filter ask tkrun: ", run.stderr)
        for run in self.inside("--static", "--", "true"):
            self.assertEqual((run.returncode, len(run.stderr.splitlines())), (125, 1))

    @needs_root("chooses the numbers of processes")
    def test_processes_that_have_the_same_number(self):
        # a look may find one before it has loaded the library
        last = "/proc/sys/kernel/ns_last_pid"
        if not os.access(last, os.W_OK):
            self.skipTest(f"{last} can't be written")
        code = (f"last=$(cat {last}); end=$((SECONDS + 3)); while ((SECONDS < end)); do "
                f"echo $last >{last}; date >/dev/null; done; true")
        # in a separate namespace: on the whole machine, another test that kills a process by its
        # number could kill one of these
        for run in self.inside("--quiet", "--", "bash", "-c", code,
                               before=["unshare", "--pid", "--fork", "--mount-proc"]):
            self.assertEqual((run.returncode, run.stderr), (0, ""))
