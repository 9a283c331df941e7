"""Scripts that continue steered clocks."""
from program import OPENING, Case, Ending, run
from test_steered import OPEN, STEERED, request

# the clocks after STEERED and FIRST, by the definitions: they follow an offset, and lag
CONTINUED = ("openwords,64,8388608,23,10,9496540209,8391771,4194304007121448,9,1700000000500000000,0,0,"
             "4165281169539072,9,24718429,10000,250,8193,0,0,0,1652045498007533,6,5000,16000000,10000,0,1700000000,0,"
             "6478609796107,1152921504740785503,17553326032570810368,1700000011,9496540209\n")

FIRST = request(0, 0x2035, offset=100_000_000, status=1, constant=6) + request(10_000_000_000, 0)
LATER = (request(64_000_000_000, 0x2001, offset=50_000_000) + request(100_000_000_000, 0)
         + "get,1000000000000,realtime\nfreq,1000000000000,6553600\nupdate,1000000000000\n"
         + "counter,1000000000000,32,16777216,24,0\n")

BEFORE = """\
adj,ok,1700000000.500000000,100000000,0,0,16000000,8193,6,10000,0,0
adj,ok,1700000010.503649625,96161704,0,5000,16000000,8193,6,10000,0,10
"""
REST = """\
adj,ok,1700000064.522004432,50000000,200000,32000,16000000,8193,6,10000,0,65
adj,ok,1700000100.528749916,43428791,200000,50000,16000000,8193,6,10000,0,101
at,realtime,1700001000.573717321,2023-11-14T22:30:00.573717321Z
ok,782,1000.073717321
ok,783,1000.073717321
no,invalid
"""


class ContinuedClocks(Case):
    def test_a_script_continues_where_another_one_ended(self):
        self.check_text(OPEN + BEFORE + REST, given=STEERED + FIRST + LATER)
        for words in [], ["replay"], ["replay", "--keep", "1"]:
            with self.subTest(words=words):
                self.check_text(OPEN + REST, *words, given=CONTINUED + LATER)

    def test_fields_in_quotes_are_the_same(self):
        quoted = ",".join(f'"{field}"' for field in CONTINUED.strip().split(","))
        self.check_text(OPEN + REST, given=quoted + "\r\n" + LATER)

    def test_a_read_may_expect_a_value(self):
        script = CONTINUED + "get,10000000000,realtime,1700000010503649625\nget,10000000000,realtime,0\n"
        lines = "at,realtime,1700000010.503649625,2023-11-14T22:13:30.503649625Z\n" * 2
        self.assertEqual(Ending(3, "", f"{OPEN}{lines}differs,3,0\n"), run(given=script))

    def test_many_reports_continue_steered_clocks(self):
        self.check_text("file,0\n" + OPEN + REST, "many", "1", "a", files={"a": CONTINUED + LATER})

    def test_a_trace_begins_at_the_front_of_the_clocks(self):
        files = {"a": CONTINUED + LATER, "b": "10,10000000000\n101,100000000000\n", "early": "9,0\n", "late": "784,0\n"}
        self.check_text("1700000010503649625\n1700000100528749916\n", "trace", "realtime", "a", "b", files=files)
        for name, fault in [("early", "folded"), ("late", "unknown")]:
            self.check_error(f"item 0: {fault} front", "trace", "realtime", "a", name, files=files)

    def test_continued_clocks_do_not_race(self):
        fault = "the clocks of a race cannot be steered"
        files = {"a": OPENING, "b": CONTINUED, "c": CONTINUED + "counter,0,32,16777216,24,0\n"}
        for names, index in [(["b"], 0), (["a", "b"], 1), (["c"], 0), (["a", "c", "missing"], 1)]:
            with self.subTest(names=names):
                self.check_error(f"file {index}: {fault}", "race", "1", *names, files=files)

    def test_its_numbers_are_those_of_a_discipline(self):
        record = CONTINUED.strip().split(",")
        for place, number in [(4, 2**62 + 1), (15, 8999), (16, 0), (16, 1025), (18, 5), (19, 2), (20, 1), (21, 2**61),
                              (22, 11), (23, 16_000_001), (24, 16_000_001), (25, 8999), (25, 11001), (26, 2**62),
                              (27, 2**63), (29, -2**62), (30, 2**59 - 1), (30, 2**61), (32, 9_223_372_038)]:
            with self.subTest(place=place, number=number):
                changed = ",".join(record[:place] + [str(number)] + record[place + 1:])
                self.check_error("script: record 1: not a valid opening", given=changed)
        for place, number in [(16, -1), (17, 2**32), (19, 256), (21, 2**63), (28, "+1"), (31, 2**64), (33, "")]:
            with self.subTest(place=place, number=number):
                # a field that is no number is the fault, whatever the other fields are
                changed = ",".join(["openwords", "7"] + record[2:place] + [str(number)] + record[place + 1:])
                self.check_error("script: record 1: not a number in range", given=changed)
        for fields in record[:-1], record[:17], record + ["0"], record * 2:
            self.check_error("script: record 1: wrong number of fields", given=",".join(fields))
