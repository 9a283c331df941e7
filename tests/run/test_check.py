"""--check against a tkcore that changes one field: of one line of its report, or of one record of the
script. And the text of a record, by what the program did."""
import os
import re
import shutil
import unittest

from runs import CAN_FILTER, STILL, TKRUN, RunTest, call, program

START = "1000000000.123456789"

# a line of calls.c, and its record: on a counter of 1 GHz that moves only by sleeps
CALLS = [
    # a coarse clock has its time since the last command
    ("gettime 5", "get,0,realtime_coarse,1000000000123456789"),
    ("gettime 0", "get,0,realtime,1000000000123456789"),
    ("gettime 1", "get,0,monotonic,0"), ("gettime 7", "get,0,boottime,0"),
    ("gettime 4", "get,0,monotonic_raw,0"), ("gettime 11", "get,0,tai,1000000000123456789"),
    ("settime 0 1500000000 7", "set,0,1500000000,7"),
    ("gettime 0", "get,0,realtime,1500000000000000007"),
    ("settimeofday 1600000000 8", "set,0,1600000000,8000"),
    ("gettime 0", "get,0,realtime,1600000000000008000"),
    ("stime 1700000000", "set,0,1700000000,0"), ("settime 0 -3 4", "set,0,-3,4"),
    ("adjtimex modes=0", "adjtimex,0,0,0,0,0,0,0,0,0,0,0"),
    ("adjtimex modes=0x2 freq=11", "adjtimex,0,2,0,11,0,0,0,0,0,0,0"),
    ("adjtimex modes=0x14 maxerror=12 status=0x2041", "adjtimex,0,20,0,0,12,0,8257,0,0,0,0"),
    ("adjtimex modes=0x8 esterror=13", "adjtimex,0,8,0,0,0,13,0,0,0,0,0"),
    ("adjtimex modes=0x20 constant=1", "adjtimex,0,32,0,0,0,0,0,1,0,0,0"),
    ("adjtimex modes=0x80 constant=37", "adjtimex,0,128,0,0,0,0,0,37,0,0,0"),
    ("adjtimex modes=0x1 offset=14", "adjtimex,0,1,14,0,0,0,0,0,0,0,0"),
    ("adjtimex modes=0x4000 tick=10005", "adjtimex,0,16384,0,0,0,0,0,0,10005,0,0"),
    ("adjtimex modes=0x4000 tick=8999", "adjtimex,0,16384,0,0,0,0,0,0,8999,0,0"),
    ("adjtimex modes=0x2100 sec=15 sub=16", "adjtimex,0,8448,0,0,0,0,0,0,0,15,16"),
    ("adjtimex modes=0x8001 offset=17", "adjtimex,0,32769,17,0,0,0,0,0,0,0,0"),
    ("adjtimex modes=0xa001 offset=18", "adjtimex,0,40961,0,0,0,0,0,0,0,0,0"),
    ("gettime 11", "get,0,tai,1700000052000000016"),
]

# the fields of a line that the program got: not the numbers of commands, and no times of commands
COMPARED = {"open": [0], "ok": [0], "no": [0, 1], "at": [0, 1, 2], "adj": range(11)}

CHANGE = """#!/bin/sh
awk -F, -v OFS=, 'NR == ENVIRON["LINE"] { $ENVIRON["FIELD"] = $ENVIRON["FIELD"] "1" } { print }'
"""


class Check(RunTest):
    PROGRAM = "calls"

    def setUp(self):
        super().setUp()
        self.tools = self.share() / "bin"
        self.lines = "".join(f"{line}\n" for line, _ in CALLS)
        (self.tools / "tkcore").rename(self.tools / "real")
        (self.tools / "change").write_text(CHANGE)
        (self.tools / "change").chmod(0o755)

    def tkcore(self, code):
        """Makes a tkcore of the shell."""
        (self.tools / "tkcore").write_text(f"#!/bin/sh\n{code}\n".replace("TOOLS", str(self.tools)))
        (self.tools / "tkcore").chmod(0o755)

    def check(self, line=0, field=0):
        """Runs all calls, and compares them with the tkcore, which changes a field of a line."""
        return call([self.tools / "tkrun", "--quiet", *STILL, "--start", START, "--record",
                     self.folder / "r", "--check", "--", program(self.PROGRAM)], input=self.lines,
                    env={**os.environ, "LINE": str(line), "FIELD": str(field + 1)})

    def report(self):
        """The lines of the report of an honest tkcore."""
        self.tkcore("exec TOOLS/real \"$@\" | tee TOOLS/report")
        run = self.check()
        self.assertEqual((run.returncode, run.stderr), (0, ""))
        return (self.tools / "report").read_text().splitlines()

    def test_each_field_of_each_line_is_compared(self):
        lines = self.report()
        self.tkcore("TOOLS/real \"$@\" | TOOLS/change")
        for number, line in enumerate(lines, 1):
            for field in COMPARED[line.split(",")[0]]:
                with self.subTest(line=line, field=field):
                    run = self.check(number, field)
                    self.assertEqual(run.returncode, 3, run.stderr)
                    self.assertRegex(run.stderr, f"record {number}: the program saw ")

    def test_each_field_of_the_script_counts(self):
        self.report()
        script = (self.folder / "r").read_text().splitlines()
        self.tkcore("TOOLS/change | TOOLS/real \"$@\"")
        for number, line in enumerate(script, 1):
            for field in self.telling(*line.split(",")):
                with self.subTest(line=line, field=field):
                    self.assertEqual(self.check(number, field).returncode, 3)

    def telling(self, word, *fields):
        """The fields of a record, from 1, in which one more digit changes what the program got. The
        counter stands still, so a later reading changes little; and what is refused still is."""
        if word == "open":
            return [5, 6]
        if word == "get":
            return [2, 3]
        return [place for place, field in enumerate(fields, 1)
                if place > 1 and field != "0" and not {"-3", "8999"} & set(fields)]

    def test_the_text_of_a_record(self):
        self.report()
        _, *records = (self.folder / "r").read_text().splitlines()
        self.assertEqual(records, [record for _, record in CALLS])
        self.assertEqual(len(CALLS), len(set(CALLS)))

    def test_equal_runs_have_equal_records(self):
        texts = []
        for _ in range(2):
            self.report()
            texts.append((self.folder / "r").read_text())
        self.assertEqual(*texts)


@unittest.skipUnless(CAN_FILTER, "the kernel lets no filter ask tkrun")
class StaticCheck(Check):
    PROGRAM = "static_calls"
