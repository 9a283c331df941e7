"""Scripts whose clocks are steered. The worked rows are compared with replies of Linux 6.1.192."""
import pathlib

from program import OPENING, run
from test_reports import ReportCase
from test_scripts import fields, number

# 1 ns a cycle, REALTIME half a second after a second, and an hz of 250
STEERED = "openhz,64,1000000000,600,0,1700000000,500000000,250\n"
OPEN = "open,64,8388608,23\n"


TOP = pathlib.Path(__file__).resolve().parents[2]
PAGE = TOP / "docs/TKCORE.md"
HEADER = TOP / "include/tkcore.h"  # the home of the words of steered clocks
HALF_A_SECOND, MOST_GAINED = 500_000_000 * 2**32, 500_000 * 2**32  # as lengths
NO_LAG = 2**60


def continued(mono, real_offset, **given):
    """A first record that continues steered clocks over a counter of 1 ns a cycle, at the reading 7. The numbers of
    their discipline that aren't given are those of an opening at an hz of 250."""
    usual = {"hz": 250, "status": 64, "state": 0, "is_due": 0, "due": 0, "offset": 0, "constant": 2,
             "maxerror": 16_000_000, "esterror": 16_000_000, "tick": 10_000, "frequency": 0, "reftime": 0, "adjust": 0,
             "phase": 0, "high": NO_LAG, "low": 0, "next": (mono + real_offset) // 10**9 + 1, "last_account": 7}
    sec, frac = divmod(mono, 10**9)
    words = [0, 7, 2**24, frac * 2**24, sec, real_offset, 0, 0, frac * 2**24, sec]
    numbers = [64, 2**24, 24, *words, 0, 10_000, *{**usual, **given}.values()]
    return ",".join(map(str, ["openwords", *numbers])) + "\n"


def request(reading, modes, **given):
    """A record `adjtimex`. The numbers that aren't given are 0."""
    names = ["offset", "freq", "maxerror", "esterror", "status", "constant", "tick", "sec", "sub"]
    return ",".join(map(str, ["adjtimex", reading, modes] + [given.get(name, 0) for name in names])) + "\n"


class Steered(ReportCase):
    def test_a_fresh_discipline_is_not_synchronized(self):
        self.check_report(STEERED + request(0, 0),
                          OPEN + "adj,error,1700000000.500000,0,0,16000000,16000000,64,2,10000,0,0\n")

    def test_an_offset_is_given_second_by_second(self):
        self.check_report(STEERED + request(0, 0x2035, offset=100_000_000, status=1, constant=6)
                          + request(1_000_000_000, 0) + request(10_000_000_000, 0)
                          + "get,1000000000000,realtime\n", OPEN + """\
adj,ok,1700000000.500000000,100000000,0,0,16000000,8193,6,10000,0,0
adj,ok,1700000001.500195264,99609375,0,500,16000000,8193,6,10000,0,1
adj,ok,1700000010.503649625,96161704,0,5000,16000000,8193,6,10000,0,10
at,realtime,1700001000.597981025,2023-11-14T22:30:00.597981025Z
""")

    def test_a_set_clears_the_discipline(self):
        self.check_report(STEERED + request(0, 0x2035, offset=100_000_000, status=1, constant=6)
                          + "set,0,1700000005,0\n" + request(0, 0), OPEN + """\
adj,ok,1700000000.500000000,100000000,0,0,16000000,8193,6,10000,0,0
ok,1,0.000000000
adj,error,1700000005.000000000,0,0,16000000,16000000,8257,6,10000,0,1
""")

    def test_a_counter_of_steered_clocks_does_not_change(self):
        self.check_report(STEERED + "counter,0,64,8388608,23,0\n", OPEN + "no,invalid\n")

    def test_a_request_to_other_clocks_is_invalid(self):
        self.check_report(OPENING + request(0, 0), "open,32,16777216,24\nno,invalid\n")

    def test_a_request_to_other_clocks_is_invalid_before_all_tests(self):
        self.check_report(OPENING + "suspend,5\n" + request(5, 0) + request(4, 0) + request(2**32, 0x80, constant=37),
                          "open,32,16777216,24\nok,1,0.000000005\nno,invalid\nno,invalid\nno,invalid\n")

    def test_the_present_tai_offset_needs_no_command(self):
        reply = "adj,error,1700000000.500000,0,0,16000000,16000000,64,2,10000,37,1\n"
        self.check_report(STEERED + 2 * request(0, 0x80, constant=37) + request(0, 0x80, constant=100_001),
                          OPEN + 3 * reply)

    def assert_documented(self, *sentences):
        header = " ".join(HEADER.read_text(encoding="utf-8").replace("\n *", " ").split())
        for sentence in sentences:
            self.assertIn(sentence, header)

    def test_the_bounds_of_a_continued_phase(self):
        self.assert_documented("S and F are the lengths of half a second and of 500 us.",
                               "20 the phase still to give in each of the hz parts of a second: a length from "
                               "-(S / hz) to S / hz",
                               "28 the phase of the present second, in each of its hz parts: a length up to "
                               "S / hz + F / hz in either direction",
                               "All divisions round down.")
        for hz in (1, 2, 3, 7, 9, 250, 1_000, 1_023, 1_024):
            offset, phase = HALF_A_SECOND // hz, HALF_A_SECOND // hz + MOST_GAINED // hz
            for name, most in [("offset", offset), ("phase", phase)]:
                for sign in (1, -1):
                    given = {"hz": hz, name: sign * most}
                    self.check_report(continued(0, 10**9, **given), "open,64,16777216,24\n")
                    given[name] += sign
                    self.check_fault(continued(0, 10**9, **given), "record 1: not a valid opening")

    def test_a_continued_mark_is_any_number(self):
        self.assert_documented("32 the reading up to which words 29 and 30 account for the cycles: any number")
        self.assertIn("Word 32 is taken modulo 2^bits.", " ".join(PAGE.read_text(encoding="utf-8").split()))
        for last_account in (0, 6, 7, 2**63, 2**64 - 1):
            self.check_report(continued(0, 10**9, last_account=last_account), "open,64,16777216,24\n")
        # 32 bits: the marks 9 and 2^32 + 9 are the same reading
        for last_account in (9, 2**32 + 9):
            opening = continued(0, 10**9, last_account=last_account).replace("openwords,64,", "openwords,32,")
            self.check_report(opening + "update,8\nupdate,9\n",
                              "open,32,16777216,24\nno,behind\nok,1,0.000000002\n")

    def test_a_reading_past_a_limit_is_refused_before_the_last_request(self):
        # MONOTONIC reaches its limit at the reading 7 + 946080000 s, before the last account
        past = 946_080_000 * 10**9 + 7
        self.check_report(continued(0, 17 * 10**17, last_account=2**60) + "".join(
            f"update,{reading}\n" + request(reading, 0) for reading in (6, 7, past - 1, past, 2**60 - 1)),
            "open,64,16777216,24\n" + 6 * "no,behind\n" + 4 * "no,range\n")

    def test_a_refused_leap_leaves_its_state(self):
        # REALTIME is MONOTONIC, so it can't repeat a second
        opening = continued(86_397 * 10**9, 0, status=16, state=1, is_due=1, due=86_400, maxerror=0, esterror=0)
        self.check_report(opening + request(3_000_000_006, 0) + request(3_500_000_007, 0) + "get,3500000007,tai\n"
                          + request(4_500_000_007, 0), """\
open,64,16777216,24
adj,ins,86399.999999,0,0,1000,0,16,2,10000,0,0
adj,oop,86400.500000,0,0,1500,0,16,2,10000,0,0
at,tai,86400.500000000
adj,wait,86401.500000,0,0,2000,0,16,2,10000,0,0
""")

    def test_a_request_has_its_faults(self):
        for record, fault in [("adjtimex,0,0,0,0,0,0,0,0,0,0", fields(2)),
                              ("adjtimex,0,0,0,0,0,0,0,0,0,0,0,0", fields(2)),
                              ("adjtimex,0,4294967296,0,0,0,0,0,0,0,0,0", number(2)),
                              ("adjtimex,0,0,0,0,0,0,-1,0,0,0,0", number(2)),
                              ("adjtimex,0,0,9223372036854775808,0,0,0,0,0,0,0,0", number(2))]:
            self.check_fault(OPENING + record, fault)

    def test_hz_is_at_most_1024(self):
        for hz, fault in [(0, "record 1: not a valid opening"), (1025, "record 1: not a valid opening"),
                          (2**32, number(1)), ("", number(1))]:
            self.check_fault(f"open,32,16777216,24,0,0,0,{hz}\n", fault)
        self.check_report("open,32,16777216,24,0,0,0,1024\n", "open,32,16777216,24\n")

    def test_steered_clocks_do_not_race(self):
        for script in [STEERED, OPENING + request(0, 0)]:
            self.check_error("file 0: the clocks of a race cannot be steered", "race", "1", "a",
                             files={"a": script})

    def test_a_trace_knows_the_commands_of_the_discipline(self):
        script = STEERED + request(0, 0x2, freq=6_553_600) + "get,10500000000,realtime\n"
        self.check_text("1700000000500000000\n1700000011001049995\n", "trace", "realtime", "s", "t",
                        files={"s": script, "t": "0,0\n4,10500000000\n"})


del ReportCase
