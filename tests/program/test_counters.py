"""Scripts that change their counter."""
from program import OPENING, Case, Ending, run
from test_reports import MOST, ReportCase
from test_scripts import fields, number, word

# from one nanosecond a cycle to 4,194,304 ns, and to 16,777,216 / 2^24 ns again
CHANGES = OPENING + """\
update,1000
counter,1500,64,4194304,0,7
get,7,monotonic
get,8,monotonic
get,4294967296,monotonic_coarse
update,6
counter,8,32,16777216,24,4294967295
get,0,monotonic
update,4
"""

CHANGED = """\
open,32,16777216,24
ok,1,0.000001000
ok,2,0.000001500
at,monotonic,0.000001500
at,monotonic,0.004195804
at,monotonic_coarse,0.000001500
no,behind
ok,3,0.004195804
at,monotonic,0.004195805
ok,4,0.004195809
"""


class Changes(ReportCase):
    def test_the_clocks_go_on_over_each_counter(self):
        self.check_report(CHANGES, CHANGED)
        ended = run("many", "2", "a", "b", files={"a": CHANGES, "b": CHANGES})
        self.assertEqual(Ending(0, "", f"file,0\n{CHANGED}file,1\n{CHANGED}"), ended)

    def test_a_smaller_shift_cuts_the_part_below_a_nanosecond(self):
        # 385 / 2^8 ns a cycle: 1.50 ns, cut to 1 ns and not to 1.50 ns; uncut, two cycles are 3.01 ns
        self.check_report("""\
open,32,385,8,0,0,0
update,1
counter,1,32,256,0,0
counter,0,32,385,8,0
get,1,monotonic
counter,0,32,98560,16,0
get,1,monotonic
get,2,monotonic
""", """\
open,32,385,8
ok,1,0.000000001
ok,2,0.000000001
ok,3,0.000000001
at,monotonic,0.000000002
ok,4,0.000000001
at,monotonic,0.000000002
at,monotonic,0.000000004
""")

    def test_settings_and_offsets_stay(self):
        # the tick of 11,000 us makes the mults 18454937 / 2^24 and 4613734 / 2^22
        self.check_report(OPENING + """\
tick,0,11000
tai,0,37
step,0,-100,0
counter,1000000000,64,4194304,22,5
get,1000000005,monotonic
get,1000000005,monotonic_raw
get,1000000005,realtime
get,1000000005,tai
suspend,1000000005
resume,0,7,0
get,0,boottime
""", """\
open,32,16777216,24
ok,1,0.000000000
ok,2,0.000000000
ok,3,0.000000000
ok,4,1.099999964
at,monotonic,2.199999868
at,monotonic_raw,2.000000000
at,realtime,1699999902.199999868,2023-11-14T22:11:42.199999868Z
at,tai,1699999939.199999868
ok,5,2.199999868
ok,6,2.199999868
at,boottime,9.199999868
""")

    def test_clocks_that_are_asleep_stay_asleep(self):
        self.check_report(OPENING + """\
suspend,1000
counter,4294967296,8,256,0,0
counter,5,8,256,0,255
get,100,monotonic
update,100
counter,256,8,256,0,0
resume,10,1,0
get,11,boottime
""", """\
open,32,16777216,24
ok,1,0.000001000
no,invalid
ok,2,0.000001000
at,monotonic,0.000001000
no,asleep
no,invalid
ok,3,0.000001000
at,boottime,1.000001256
""")

    def test_each_test_refuses_a_change(self):
        # the last two: 244,506,821 cycles of 3.869339906 s end below 946,080,000 s, and one more doesn't
        self.check_report(OPENING + """\
update,1000
counter,999,8,256,0,256
counter,4294967296,8,256,0,0
counter,999,8,256,0,255
counter,1000,64,256,0,18446744073709551615
counter,18446744073709551615,64,3869339906,0,0
counter,244506822,8,256,0,0
counter,244506821,8,256,0,0
""", """\
open,32,16777216,24
ok,1,0.000001000
no,invalid
no,invalid
no,behind
ok,2,0.000001000
ok,3,0.000001000
no,range
ok,4,946079999.784499826
""")

    def test_monotonic_raw_may_be_ahead_by_the_slowest_rate(self):
        # 230 ns of MONOTONIC to 256 ns of MONOTONIC_RAW: 0.898, and the next counter's least is 0.899
        self.check_report("""\
open,32,256,0,0,0,0
tick,0,9000
freq,0,-32768000
counter,1000,32,16777216,24,0
counter,1000,64,256,0,0
get,0,monotonic_raw
""", """\
open,32,256,0
ok,1,0.000000000
ok,2,0.000000000
no,range
ok,3,0.000230000
at,monotonic_raw,0.000256000
""")

    def test_a_full_journal_begins_again(self):
        change = "counter,0,32,16777216,24,0\n"
        script = OPENING + "tai,0,0\n" * MOST + "update,0\n" + change + "update,0\n"
        lines = [f"ok,{MOST}", "no,full", f"ok,{MOST + 1}", f"ok,{MOST + 2}"]
        self.check_end(script, lines)
        early = 1_000_000
        script = OPENING + "tai,0,0\n" * early + change + "tai,0,0\n" * (MOST + 1)
        self.check_end(script, [f"ok,{early + 1 + MOST}", "no,full"])
        self.check_end(script, [f"ok,{early + 2 + MOST}"], "replay", "--keep", "1")

    def check_end(self, script, lines, *words):
        text = "".join(line + (".".join([",0", "0" * 9]) if line.startswith("ok") else "") + "\n"
                       for line in lines)
        ended = run(*words, given=script)
        self.assertEqual((0, text), (ended.status, ended.text[-len(text):]))


class Faults(ReportCase):
    def test_a_change_has_five_numbers_of_a_counter(self):
        for record, fault in [
                ("counter", fields(2)), ("counter,0,32,16777216,24", fields(2)),
                ("counter,x,7,0,33,x,0", fields(2)), ("Counter,0,8,256,0,0", word(2)),
                ("counter,x,8,256,0,0", number(2)), ("counter,0,-8,256,0,0", number(2)),
                ("counter,0,4294967296,256,0,0", number(2)),
                ("counter,0,8,4294967296,0,0", number(2)),
                ("counter,0,8,256,4294967296,0", number(2)),
                ("counter,18446744073709551616,8,256,0,0", number(2)),
                ("counter,0,8,256,0,18446744073709551616", number(2)),
                ("counter,0,7,255,33,", number(2))]:
            self.check_fault(OPENING + record, fault)

    def test_a_counter_that_is_none_has_its_fault(self):
        bits, shift = "a reading does not have 8 to 64 bits", "the shift is above 32"
        mult = "the mult is below 256"
        adjust = "the mult and 11 percent of it do not fit 32 bits"
        for numbers, fault in [
                ("0,0,33", bits), ("7,256,0", bits), ("65,256,0", bits), ("4294967295,256,0", bits),
                ("8,0,33", shift), ("64,256,4294967295", shift), ("8,255,32", mult), ("64,0,0", mult),
                ("64,3869339907,32", adjust), ("8,4294967295,0", adjust)]:
            script = OPENING + f"update,0\ncounter,0,{numbers},0\nupdate\n"
            self.check_fault(script, f"record 3: {fault}")
        for numbers in ["8,256,0", "64,3869339906,32"]:
            self.check_report(OPENING + f"counter,0,{numbers},0\n",
                              "open,32,16777216,24\nok,1,0.000000000\n")


class Traces(Case):
    def check_trace(self, stamps, text, error=""):
        ended = run("trace", "monotonic", "a", "b", files={"a": CHANGES, "b": stamps})
        self.assertEqual(Ending(1 if error else 0, error, text), ended)

    def test_stamps_are_of_the_last_counter(self):
        self.check_trace("3,4294967295\n3,0\n4,5\n", "4195804\n4195805\n4195810\n")

    def test_an_older_front_is_folded(self):
        for stamps, fault in [("2,8\n", "item 0: folded front"),
                              ("3,0\n0,0\n9,0\n", "item 1: folded front"),
                              ("5,0\n", "item 0: unknown front"),
                              ("3,4294967296\n2,0\n", "item 0: stamp above the mask")]:
            self.check_trace(stamps, "", fault)


class Races(Case):
    def test_a_script_of_a_race_keeps_its_counter(self):
        files = {"a": OPENING, "b": CHANGES, "c": "open,8,256,0,0,0,0\n", "d": OPENING + "update\n"}
        fault = "the counter of a race cannot change"
        for names, error in [(["b"], f"file 0: {fault}"), (["a", "c", "b"], f"file 2: {fault}"),
                             (["b", "missing"], f"file 0: {fault}"),
                             (["d", "b"], "file 0: record 2: wrong number of fields")]:
            with self.subTest(names=names):
                self.check_error(error, "race", "1", *names, files=files)
