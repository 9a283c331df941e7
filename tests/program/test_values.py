"""Reads that state the value that they expect."""
from program import OPENING, SHORT, SHORT_FAULT, Case, Ending, run

SAME = OPENING + "get,5,monotonic,5\nget,5,tai,001700000000000000005\n"
SAME_REPORT = """\
open,32,16777216,24
at,monotonic,0.000000005
at,tai,1700000000.000000005
"""
OTHER = OPENING + "get,5,monotonic,6\nupdate,9\nget,4294967296,tai,1\n"
OTHER_REPORT = """\
open,32,16777216,24
at,monotonic,0.000000005
differs,2,6
ok,1,0.000000009
no,invalid
differs,4,1
"""


class Values(Case):
    def check(self, status, text, *words, **given):
        self.assertEqual(Ending(status, "", text), run(*words, **given))

    def test_a_replay_shows_each_difference(self):
        for words in [[], ["replay"], ["replay", "--keep", "1"]]:
            with self.subTest(words=words):
                self.check(0, SAME_REPORT, *words, given=SAME)
                self.check(3, OTHER_REPORT, *words, given=OTHER)
                self.check(3, OTHER_REPORT, *words, given=OTHER.replace("get", '"get"'))

    def test_a_value_beside_the_clocks_differs(self):
        for clock, value in [("realtime", 1_700_000_000_000_000_005), ("monotonic_raw", 5),
                             ("realtime_coarse", 1_700_000_000_000_000_000)]:
            for beside, status in [(-1, 3), (0, 0), (1, 3)]:
                with self.subTest(clock=clock, beside=beside):
                    given = OPENING + f"get,5,{clock},{value + beside}\n"
                    self.assertEqual(status, run(given=given).status)

    def test_a_fault_of_a_value_ends_it(self):
        number, word = "not a number in range", "unknown word"
        for record, fault in [("get,5,tai,", number), ("get,5,tai,-1", number),
                              ("get,5,tai,18446744073709551616", number), ("get,5,tia,x", word),
                              ("get,5,tai,1,", "wrong number of fields")]:
            with self.subTest(record=record):
                given = OPENING + "get,5,tai,1\n" + record
                self.check_error(f"script: record 3: {fault}", given=given)

    def test_many_ends_with_a_fault_before_a_difference(self):
        files = {"same": SAME, "other": OTHER, "short": SHORT}
        same, other = f"file,0\n{SAME_REPORT}", f"file,1\n{OTHER_REPORT}"
        self.check(0, same, "many", "2", "same", files=files)
        self.check(3, same + other, "many", "2", "same", "other", files=files)
        self.check(1, same + other + f"file,2\nfault,{SHORT_FAULT}\n",
                   "many", "2", "same", "other", "short", files=files)

    def test_a_trace_and_a_race_check_no_values(self):
        files = {"other": OTHER, "stamps": "1,10\n"}
        self.check(0, "10\n", "trace", "monotonic", "other", "stamps", files=files)
        self.check(0, "entries,1\nactor,0,1,0\n", "race", "1", "other", files=files)
