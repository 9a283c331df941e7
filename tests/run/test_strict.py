"""A green run means that every program read these clocks: programs that read past the library, that
can't find its files, or that start and end at once."""
import os
import pathlib
import shutil
import subprocess
import unittest

from runs import (CAN_FILTER, CAN_TRACE, LIBRARY, OTHER, STILL, TKRUN, RunTest, call, needs,
                  needs_mounts, needs_root, program)

START = 1000000000

GO = """package main

import (
\t"fmt"
\t"os/user"
\t"time"
)

func main() {
\tuser.Current()
\tfmt.Println(time.Now().Unix())
}
"""


@unittest.skipUnless(CAN_FILTER, "the kernel lets no filter ask tkrun")
@unittest.skipUnless(CAN_TRACE, "no process may be traced")
class Covered(RunTest):
    """Each of these prints the second at which the clocks have started, on a counter that moves
    with sleeps only, and there is no warning."""

    def covered(self, *command, count=1):
        self.assertEqual(self.run_on(*STILL, "--start", START, "--", *command).split(),
                         [str(START)] * count)

    def test_the_vdso(self):
        for options in [STILL, ["--counter", "tsc"], ["--record", self.folder / "r"]]:
            for name in ["vdso", "static_vdso"]:
                with self.subTest(options=options, name=name):
                    self.assertEqual(self.run_on(*options, "--start", START, "--", program(name)),
                                     "")

    def test_functions_of_the_c_library_by_name(self):
        self.assertEqual(self.run_on("--start", START, "--", program("named")), "")

    def test_the_vdso_on_a_host_whose_vdso_reads_no_clock(self):
        run = call([program("novdso"), TKRUN, "--quiet", "--start", str(START), "--",
                    program("vdso"), "none"])
        self.assertEqual((run.returncode, run.stdout, run.stderr), (0, "", ""))

    @needs("go")
    def test_a_dynamic_program_in_go(self):
        source, built = self.file("main.go", GO), self.folder / "program"
        subprocess.run(["go", "build", "-o", built, source], check=True,
                       env={**os.environ, "CGO_ENABLED": "1", "GO111MODULE": "off",
                            "GOCACHE": str(self.folder / "cache"), "GOFLAGS": ""})
        self.assertIn(b"ld-linux", built.read_bytes())
        # it ends if MONOTONIC is 0
        self.assertEqual(self.run_on(*STILL, "--start", START, "--uptime", 1, "--", built),
                         f"{START}\n")

    @needs("etcd")
    def test_etcd(self):
        run = self.begin(TKRUN, "--quiet", "--start", "2001-01-01T00:00:00Z", "--", "etcd",
                         "--data-dir", self.folder / "etcd", stderr=subprocess.PIPE,
                         stdout=subprocess.DEVNULL)
        lines = [run.stderr.readline() for _ in range(3)]
        run.terminate()
        run.communicate(timeout=100)
        self.assertIn("2001-01-01", "".join(lines))

    @needs("/usr/bin/python3")
    def test_functions_of_the_c_library(self):
        self.covered("/usr/bin/python3", "-c", LIBRARY, count=3)

    @needs("musl-gcc")
    def test_a_program_of_another_c_library(self):
        source = self.file("main.c", "#include <stdio.h>\n#include <time.h>\n#include <unistd.h>\n"
                           "int main(void) { sleep(2); printf(\"%lld\\n\", (long long)time(0) - 2);"
                           " return 0; }\n")
        for kind in ["-static", "-no-pie", "-pie"]:
            with self.subTest(kind):
                subprocess.run(["musl-gcc", "-fPIE", kind, "-o", self.folder / "program", source],
                               check=True)
                self.covered(self.folder / "program")

    def test_other_environments(self):
        for names in [["-i"], ["-u", "TKRUN"], ["-u", "LD_PRELOAD"], ["TKRUN=/nowhere"],
                      ["LD_PRELOAD="], ["-u", "LD_PRELOAD", "-u", "TKRUN"]]:
            with self.subTest(names):
                self.covered("env", *names, "/bin/date", "+%s")

    def test_a_cleared_environment_and_a_record(self):
        run = self.start(*STILL, "--start", START, "--check", "--", "env", "-i", "/bin/date", "+%s")
        self.assertEqual((run.returncode, run.stdout), (0, f"{START}\n"), run.stderr)
        self.assertIn("check: tkcore gives each of the", run.stderr)

    def test_short_children(self):
        static = program("static_vdso")
        self.assertEqual(self.run_on("--start", START, "--", "bash", "-c",
                                     f"for i in 1 2 3; do {static} || exit; done; echo ok"),
                         "ok\n")

    @needs_mounts("hides /dev/shm")
    def test_another_file_system_of_shared_memory(self):
        sets = "mount -t tmpfs t /dev/shm; date +%s; date -s @2000000000 +%s; date +%s"
        self.assertEqual(self.run_on(*STILL, "--start", START, "--", "unshare", "-m", "bash", "-c",
                                     sets).split(), [str(START), "2000000000", "2000000000"])

    @needs_mounts("hides /dev/shm")
    def test_a_wait_in_another_file_system_of_shared_memory(self):
        waits = "mount -t tmpfs t /dev/shm; date +%s; sleep 100; env -i /bin/sleep 100; date +%s"
        self.assertEqual(self.run_on(*STILL, "--start", START, "--", "unshare", "-m", "bash", "-c",
                                     waits).split(), [str(START), str(START + 200)])

    @needs_root("changes the root")
    def test_another_root(self):
        root = self.make_root("date", "env")
        shutil.copy(program("static_vdso"), root / "static_vdso")
        run = self.start("--quiet", *STILL, "--start", START, "--", "bash", "-c",
                         f"chroot {root} {shutil.which('date')} +%s; chroot {root} /static_vdso; "
                         f"chroot {root} {shutil.which('env')} -i {shutil.which('date')} +%s")
        self.assertEqual((run.returncode, run.stdout.split()), (0, [str(START)] * 2))
        self.assertNotIn("tkrun: ", run.stderr)

    @needs_root("changes the root")
    def test_a_library_in_another_root(self):
        # it finds neither the clocks nor the record nor the log by name
        root = self.make_root("date")
        library = pathlib.Path(TKRUN).parents[1] / "lib/libtkrun.so"
        (root / "lib").mkdir(exist_ok=True)
        copy = root / str(library.resolve()).lstrip("/")
        copy.parent.mkdir(parents=True, exist_ok=True)
        shutil.copy(library, copy)
        log = self.folder / "log"
        run = self.start(*STILL, "--start", START, "--check", "--log", log, "--", "chroot", root,
                         shutil.which("date"), "-s", "@2000000000", "+%s")
        self.assertEqual((run.returncode, run.stdout), (0, "2000000000\n"), run.stderr)
        self.assertIn("clock_settime 2000000000.000000000 = 0", log.read_text())

    @needs_root("becomes another user")
    def test_other_users(self):
        shared = self.share()
        for command in [["date"], ["env", "-i", "/bin/date"], ["env", "-u", "TKRUN", "date"]]:
            run = call([shared / "bin/tkrun", "--quiet", *STILL, "--start", str(START), "--",
                        *OTHER, *command, "+%s"])
            self.assertEqual((run.stdout, run.stderr, run.returncode), (f"{START}\n", "", 0))

    @needs_root("becomes another user")
    def test_another_user_sets_no_clock(self):
        for words in [[], ["env", "-i"], ["env", "-u", "TKRUN"]]:
            run = call([self.share() / "bin/tkrun", "--quiet", *STILL, "--start", str(START), "--",
                        "bash", "-c", '"$@" /bin/date -s @5; date +%s', "bash", *OTHER, *words])
            self.assertIn("Operation not permitted", run.stderr)
            self.assertEqual(run.stdout.splitlines()[-1], str(START))
            shutil.rmtree(self.folder / "dist")

    @needs_root("makes a setuid program")
    def test_a_setuid_program(self):
        copied = self.folder / "date"
        shutil.copy(shutil.which("date"), copied)
        shutil.chown(copied, "nobody")
        copied.chmod(0o4755)
        self.folder.chmod(0o755)
        self.covered(copied, "+%s")

    def test_a_program_whose_execution_failed_before(self):
        # a thread is traced until its call has succeeded
        self.covered("env", "-i", "/bin/sh", "-c", "PATH=/nowhere:/bin:/usr/bin; exec date +%s")

    def test_a_signal_after_an_execution_that_failed(self):
        # the thread is still traced when its signal comes
        code = ("shopt -s execfail; exec /nowhere/program 2>/dev/null; trap 'echo got' USR1; "
                "kill -USR1 $$; echo over")
        self.assertEqual(self.run_on("--", "bash", "-c", code), "got\nover\n")

    def test_reads_of_a_traced_program_are_recorded(self):
        counts = []
        for tracer in [[], [program("traced")]]:
            self.run_on("--start", START, "--record", self.folder / "r", "--", *tracer,
                        program("vdso"))
            counts.append((self.folder / "r").read_text().count("\nget,"))
        self.assertGreater(counts[0], 20)
        self.assertEqual(*counts)

    def test_a_traced_program_with_the_library(self):
        for options in [[], ["--counter", "tsc"], ["--record", self.folder / "r"]]:
            with self.subTest(options):
                self.assertEqual(self.run_on(*options, "--start", START, "--", program("traced"),
                                             program("vdso")), "")
