"""libfaketime's own tests, unmodified, as far as they mean something here: its program timetest, reads
in programs and in constructors of libraries, and the dates of each power of two.

The source is that of Debian's faketime: FAKETIME_SOURCE, or a folder /usr/src/faketime-*, which
`tools/packages --install check_run` makes. What isn't tested is what tkrun doesn't do: other random numbers and
process numbers, times of files, times that the environment changes from one program to the next, and
a REALTIME that stands still while MONOTONIC goes on.
"""
import os
import pathlib
import re
import subprocess
import unittest

from runs import STILL, RunTest

FOUND = sorted(map(str, pathlib.Path("/usr/src").glob("faketime-*")))
SOURCE = pathlib.Path(os.environ.get("FAKETIME_SOURCE", "".join(FOUND[-1:]) or "/nowhere")) / "test"
START = 1580608922  # 2020-02-02T02:02:02Z
READS = ["time", "clock_gettime", "clock_gettime_heap", "syscall_clock_gettime",
         "syscall_clock_gettime_heap"]


@unittest.skipUnless(SOURCE.exists(), "source:faketime isn't installed")
class Faketime(RunTest):
    def compiled(self, name, text, *options):
        """Compiles a program or a library of the source's text."""
        subprocess.run(["gcc", "-O2", "-w", f"-I{SOURCE}", "-x", "c", "-", "-o", self.folder / name,
                        "-x", "none", *options], input=text, text=True, check=True)
        return self.folder / name

    def test_timetest(self):
        timetest = self.compiled("timetest", (SOURCE / "timetest.c").read_text(), "-lpthread", "-lrt")
        # a late thread would find another number of overruns on a counter that runs
        report = self.run_on(*STILL, "--start", "2003-01-01T10:00:05Z", "--", "env", "TZ=UTC",
                             timetest)
        self.assertNotRegex(report, "(?i)failed")
        # after two waits of a second, and after sleeps of two
        self.assertEqual(re.findall("Current date and time: (.*)", report),
                         ["Wed Jan  1 10:00:07 2003"] * 2 + ["Wed Jan  1 10:00:09 2003"] * 2)

    def template(self, name, snippet):
        return (SOURCE / name).read_text().replace("SNIPPET_NAME", snippet)

    def check_reads(self, report, least):
        """All times in a report are the start's, and there are some."""
        numbers = re.findall(r"(?:yielded |\{)(\d+)", report)
        self.assertEqual(set(numbers), {str(START)}, report)
        self.assertGreaterEqual(len(numbers), least)

    def test_reads_of_programs(self):
        for snippet in READS:
            with self.subTest(snippet):
                program = self.compiled("run", self.template("_run_test.c", snippet))
                self.check_reads(self.run_on(*STILL, "--start", START, "--", program), 1)

    def test_reads_in_constructors_of_libraries(self):
        for snippet in READS:
            with self.subTest(snippet):
                self.compiled(f"lib{snippet}.so", self.template("_libtest.c", snippet), "-shared",
                              "-fPIC")
                program = self.compiled("use", self.template("_use_lib_test.c", snippet),
                                        f"-L{self.folder}", f"-l{snippet}")
                report = self.run_on(*STILL, "--start", START, "--", "env",
                                     f"LD_LIBRARY_PATH={self.folder}", program)
                self.check_reads(report, 2)

    def test_the_date_of_each_power_of_two(self):
        for power in range(31):
            self.assertEqual(self.run_on(*STILL, "--start", 2**power, "--", "date", "+%s"),
                             f"{2**power}\n")
