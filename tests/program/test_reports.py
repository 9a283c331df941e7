"""Reports of scripts, with a journal that keeps all entries and with one that is folded."""
from program import OPENING, SHORT, SHORT_FAULT, Case, run

SCRIPT = OPENING + """\
get,0,monotonic
update,2147483647
get,2147483648,monotonic
update,0
"""

REPORT = """\
open,32,16777216,24
at,monotonic,0.000000000
ok,1,2.147483647
at,monotonic,2.147483648
no,behind
"""

# how many commands a journal lists
MOST = 1_048_576


class ReportCase(Case):
    def check_report(self, script, report):
        for words in [[], ["replay"], ["replay", "--keep", "1"], ["replay", "--keep=524288"]]:
            with self.subTest(words=words, script=script):
                self.check_text(report, *words, given=script)

    def check_fault(self, script, fault):
        for words in [[], ["replay", "--keep", "1"]]:
            with self.subTest(words=words, script=script):
                self.check_error(f"script: {fault}", *words, given=script)


class Reports(ReportCase):
    def test_each_record_is_reported_in_a_line(self):
        self.check_report(SCRIPT, REPORT)

    def test_records_may_end_with_two_bytes(self):
        self.check_report(SCRIPT.replace("\n", "\r\n"), REPORT)

    def test_the_last_record_may_lack_its_end(self):
        for length, fault in [(0, "no record"), (3, "record 1: not a valid opening"),
                              (4, "record 1: wrong number of fields"),
                              (32, "record 1: wrong number of fields"),
                              (33, "record 1: not a number in range")]:
            self.check_fault(OPENING[:length], fault)
        self.check_report(OPENING[:34], "open,32,16777216,24\n")

    def test_the_first_fault_ends_it(self):
        invalid, short = "record 1: not a valid opening", "wrong number of fields"
        for script, fault in [("", "no record"), ("\n\r\n", "no record"), ("update,0\n", invalid),
                              ('"update,0\n', invalid), (b"\xff", invalid), (SHORT, SHORT_FAULT),
                              (OPENING + "updat,0\n", "record 2: unknown word"),
                              (OPENING + "\nupdate\n", f"record 2: {short}"),
                              (OPENING + "update,7\nupdate, 8\n",
                               "record 3: not a number in range")]:
            self.check_fault(script, fault)

    def test_a_full_journal_refuses_a_command(self):
        script = OPENING + "update,0\n" * (MOST + 1)
        ended = run(given=script)
        self.assertTrue(ended.text.endswith(f"ok,{MOST},0.000000000\nno,full\n"))
        folded = [f"ok,{it},0.000000000\n" for it in range(1, MOST + 2)]
        ended = run("replay", "--keep", "1", given=script)
        self.assertTrue(ended.text == "".join(["open,32,16777216,24\n", *folded]))


class Scenarios(ReportCase):
    """Whole scripts, with what each of their commands and reads gives."""

    def test_every_clock_shows_a_suspension(self):
        self.check_report("""\
openhz,32,24000000,600,0,1700000000,0
get,24000000,monotonic
tai,24000000,37
suspend,48000000
update,48000001
resume,7,5,500000000
get,7,realtime
get,7,boottime
get,7,tai
""", """\
open,32,699050667,24
at,monotonic,1.000000000
ok,1,1.000000000
ok,2,2.000000000
no,asleep
ok,3,2.000000000
at,realtime,1700000007.500000000,2023-11-14T22:13:27.500000000Z
at,boottime,7.500000000
at,tai,1700000044.500000000
""")

    def test_a_frequency_lasts_and_refusals_change_nothing(self):
        self.check_report(OPENING + """\
set,0,8277292035,999999999
set,0,8277292036,0
step,0,-8277292035,0
step,0,0,1000000000
freq,0,65536000
get,1000000000,monotonic
freq,1000000000,-32768000
get,1000000001,monotonic
get,1000000001,monotonic_coarse
tai,1000000000,100001
tai,999999999,1
resume,0,0,0
get,4294967296,tai
""", """\
open,32,16777216,24
ok,1,0.000000000
no,invalid
ok,2,0.000000000
no,invalid
ok,3,0.000000000
at,monotonic,1.000499963
ok,4,1.000499963
at,monotonic,1.000499964
at,monotonic_coarse,1.000499963
no,invalid
no,behind
no,awake
no,invalid
""")

    def test_a_tick_steers_monotonic_and_not_the_raw_clock(self):
        self.check_report(OPENING + """\
tick,0,11000
get,1000000000,monotonic
get,1000000000,monotonic_raw
tick,1000000000,8999
tick,1000000000,11001
""", """\
open,32,16777216,24
ok,1,0.000000000
at,monotonic,1.099999964
at,monotonic_raw,1.000000000
no,invalid
no,invalid
""")

    def test_a_tai_offset_is_a_command(self):
        self.check_report(OPENING + "tai,0,1\nget,0,tai\n",
                          "open,32,16777216,24\nok,1,0.000000000\nat,tai,1700000001.000000000\n")
