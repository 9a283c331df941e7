"""Scripts that begin from running clocks."""
from program import OPENING, Case, Ending, run

# the clocks after OPENING and FIRST: a command at reading 1,500,000,000, asleep, 37 s to TAI
RUNNING = ("openwords,32,16777216,24,3,1500000000,16777216,8388608000000000,1,1700000000000000000,0,75,"
           "8388608000000000,1,0,10000\n")

FIRST = "update,1000000000\ntai,1000000000,37\nsuspend,1500000000\nget,7,monotonic\n"
LATER = "get,4000000000,boottime\nupdate,4\nresume,7,5,500000000\nupdate,250000007\nget,250000007,tai\n"

REST = """\
at,boottime,1.500000000
no,asleep
ok,4,1.500000000
ok,5,1.750000000
at,tai,1700000044.250000000
"""


class RunningClocks(Case):
    def test_a_script_continues_where_another_one_ended(self):
        whole = "open,32,16777216,24\nok,1,1.000000000\nok,2,1.000000000\nok,3,1.500000000\nat,monotonic,1.500000000\n"
        self.check_text(whole + REST, given=OPENING + FIRST + LATER)
        for words in [], ["replay"], ["replay", "--keep", "1"]:
            with self.subTest(words=words):
                self.check_text("open,32,16777216,24\n" + REST, *words, given=RUNNING + LATER)

    def test_a_read_may_expect_a_value(self):
        script = RUNNING + "get,9,tai,1700000038500000000\nget,9,tai,0\n"
        lines = "at,tai,1700000038.500000000\n" * 2
        self.assertEqual(Ending(3, "", f"open,32,16777216,24\n{lines}differs,3,0\n"), run(given=script))

    def test_many_reports_begin_from_running_clocks(self):
        report = "file,0\nopen,32,16777216,24\n" + REST
        self.check_text(report, "many", "1", "a", files={"a": RUNNING + LATER})

    def test_a_trace_begins_at_the_front_of_the_clocks(self):
        files = {"a": RUNNING + LATER, "b": "3,9\n5,250000008\n", "early": "2,9\n", "late": "6,9\n"}
        self.check_text("1500000000\n1750000001\n", "trace", "monotonic", "a", "b", files=files)
        for name, fault in [("early", "folded"), ("late", "unknown")]:
            self.check_error(f"item 0: {fault} front", "trace", "monotonic", "a", name, files=files)

    def test_a_race_opens_its_clocks(self):
        fault = "a race cannot begin from running clocks"
        files = {"a": OPENING + LATER, "b": RUNNING, "c": RUNNING + "counter,0,32,16777216,24,0\n"}
        for names, index in [(["b"], 0), (["a", "b"], 1), (["b", "a"], 0), (["c"], 0), (["a", "c", "missing"], 1)]:
            with self.subTest(names=names):
                self.check_error(f"file {index}: {fault}", "race", "1", *names, files=files)

    def test_its_numbers_are_those_of_running_clocks(self):
        record = RUNNING.strip().split(",")
        for place, number in [(1, 7), (4, 2**62 + 1), (5, 2**32), (6, 16777215), (7, 16777216000000000), (8, 946080000),
                              (9, 9223372034500000000), (11, 200002), (12, 16777216000000000), (13, 1060000000),
                              (14, 65536), (15, 8999), (15, 9999)]:
            with self.subTest(place=place):
                changed = ",".join(record[:place] + [str(number)] + record[place + 1:])
                self.check_error("script: record 1: not a valid opening", given=changed)
        for place, number in [(2, -1), (4, -1), (7, "+1"), (12, 2**64), (14, 2**63), (15, "")]:
            with self.subTest(place=place, number=number):
                changed = ",".join(record[:place] + [str(number)] + record[place + 1:])
                self.check_error("script: record 1: not a number in range", given=changed)
        for fields in record[:-1], record + ["0"], record * 2:
            self.check_error("script: record 1: wrong number of fields", given=",".join(fields))

    def test_it_is_the_first_record_only(self):
        self.check_error("script: record 2: unknown word", given=OPENING + RUNNING)
