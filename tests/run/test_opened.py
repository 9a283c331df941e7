"""Each file that tkrun or its library opens is closed in a program that is executed, from the
moment at which it is open: another thread may execute one just then. A tracer looks at all files
after each system call (tests/run/opened.c), and so finds one that is open for a moment only."""
import re
import unittest

from runs import CAN_FILTER, CAN_TRACE, STILL, TKRUN, RunTest, call, needs_mounts, program

# what the library opens, by the names of the tracer, which are without digits
BY_LIBRARY = {
    "page": "the clocks", "control": "those who command them", "record.rows": "the record",
    "log": "the log", "/proc//task": "whether a process with timers has other threads",
    "/proc//task//stat": "whether one of these has ended",
    "/proc//task//status": "whether a timer's signal is pending",
    "/proc//fdinfo/": "the expiries of a timerfd",
}

# what tkrun opens
BY_TKRUN = {
    "page": "the clocks", "control": "those who command them", "record.rows": "the record's rows",
    "record": "its script", "log": "the log", "socket:[]": "the start of the program",
    "anon_inode:seccomp notify": "the filter", "pipe:[]": "programs to execute, and tkcore",
    "anon_inode:[pidfd]": "a process that is ended", "/dev/null": "standard files that are closed",
    "/proc//maps": "what a program has mapped", "/proc//mem": "what a call stores",
    "/proc//exe": "a tkrun inside", "/proc//auxv": "where a program's vDSO is",
    "/proc//task": "the threads of a process", "/proc//task//children": "its children",
    "/proc//task//status": "whether a thread waits", "/proc//task//syscall": "for what",
    "/proc//status": "whose a thread is", "/proc//stat": "which program a process runs",
    "/proc//comm": "its name", "/proc//net/softnet_stat": "packets that haven't arrived",
}
CLOCKS = {"page", "control", "record.rows", "log"}

CALLS = "gettime 0\nsettime 0 1500000000 7\nadjtimex modes=0\n"
HIDES = "mount -t tmpfs t /dev/shm && mount -t tmpfs t {} && exec \"$@\""


@unittest.skipUnless(CAN_TRACE, "no process may be traced")
class Opened(RunTest):
    def setUp(self):
        super().setUp()
        self.list, self.kept = self.folder / "list", self.folder / "kept"
        self.kept.mkdir()
        self.record = ["--record", self.kept / "record", "--log", self.kept / "log"]
        self.traced = [program("opened"), self.list]

    def names(self, word):
        """The files of the tracer's list after "closes" or "stays". Of those in folders of the run
        only the last part."""
        lines = self.list.read_text().splitlines()
        kept = re.escape(re.sub("[0-9]", "", str(self.kept)))
        return {re.sub(rf"^({kept}|/.*/tkrun\.[^/]*)/|^.*/(?=lib[^/]*\.so)| \(deleted\)$", "", name)
                for how, _, name in (line.partition(" ") for line in lines) if how == word}

    def check(self, table, always, *own):
        """Checks that only the program's own files stay, and that all others are in the table. The
        loader opens libraries."""
        self.assertEqual(self.names("stays"), set(own))
        self.assertLessEqual(always, self.names("closes"))
        self.assertEqual([name for name in self.names("closes") - set(table)
                          if not re.match(r"lib.*\.so|/etc/ld\.so\.cache", name)], [])

    def trace_program(self, name, *options, before=(), text=""):
        """Traces a program with the library."""
        run = call([*map(str, [TKRUN, "--quiet", *options, *self.record, "--", *before,
                               *self.traced, program(name)])], input=text)
        self.assertEqual((run.returncode, run.stderr), (0, ""))

    def test_files_of_the_library(self):
        self.trace_program("calls", text=CALLS)
        self.check(BY_LIBRARY, CLOCKS)

    def test_files_of_timers(self):
        self.trace_program("exits")
        self.check(BY_LIBRARY, {"page", "control", "/proc//task"}, "anon_inode:[timerfd]")
        self.trace_program("overruns", *STILL)
        self.check(BY_LIBRARY, {"page", "record.rows", "/proc//task//status", "/proc//fdinfo/"},
                   "anon_inode:[timerfd]")

    @needs_mounts("hides the clocks")
    @unittest.skipUnless(CAN_FILTER, "the kernel lets no filter ask tkrun")
    def test_files_that_tkrun_gives(self):
        self.trace_program("calls", text=CALLS, before=[
            "unshare", "-m", "sh", "-c", HIDES.format(self.kept), "sh"])
        self.check(BY_LIBRARY, CLOCKS)

    def test_files_of_tkrun(self):
        run = call([*map(str, [*self.traced, TKRUN, "--quiet", *STILL, *self.record, "--check",
                               "--", program("static_calls")])], input=CALLS + "sleep 1 0\n")
        self.assertEqual((run.returncode, run.stderr), (0, ""))
        name = re.sub("[0-9]", "", program("static_calls"))
        self.check({**BY_TKRUN, name: "whether it is static"},
                   CLOCKS | {name, "record", "pipe:[]", "/proc//status"})

    def test_files_of_the_comparison(self):
        tools = self.share() / "bin"
        (tools / "tkcore").rename(tools / "real")
        (tools / "tkcore").write_text(f"#!/bin/sh\nls /proc/self/fd >{self.list}\n"
                                      f"exec {tools}/real \"$@\"\n")
        (tools / "tkcore").chmod(0o755)
        run = call([str(word) for word in [tools / "tkrun", "--quiet", *self.record, "--check",
                                           "--", "date"]])
        self.assertEqual((run.returncode, run.stderr), (0, ""))
        # the last one is that of ls
        self.assertEqual(self.list.read_text().split(), ["0", "1", "2", "3"])
