"""The reports of many scripts by several workers."""
from program import OPENING, SHORT, SHORT_FAULT, Case, Ending, run

GOOD = OPENING + "update,7\n"
OTHER = "open,8,256,0,1,0,0\n"


class Many(Case):
    def test_reports_are_in_the_order_of_the_words(self):
        files = {"a": GOOD, "b": OTHER}
        for workers in ["1", "2", "007", "64"]:
            with self.subTest(workers=workers):
                self.check_text("""\
file,0
open,8,256,0
file,1
open,32,16777216,24
ok,1,0.000000007
file,2
open,8,256,0
""", "many", workers, "b", "a", "b", files=files)

    def test_the_fault_of_a_script_is_reported_in_its_place(self):
        files = {"a": GOOD, "b": SHORT, "c": "", "d": OPENING + "updat,0\n",
                 "e": OPENING + "update,-1\n", "f": "update,0\n", "g": "\n" * 16_777_217}
        self.assertEqual(Ending(1, "", f"""\
file,0
fault,{SHORT_FAULT}
file,1
open,32,16777216,24
ok,1,0.000000007
file,2
fault,no record
file,3
fault,record 2: unknown word
file,4
fault,record 2: not a number in range
file,5
fault,record 1: not a valid opening
file,6
fault,larger than 16777216 bytes
"""), run("many", "2", "b", "a", "c", "d", "e", "f", "g", files=files))

    def test_a_missing_file_ends_all(self):
        for names in [["a", "b", "missing"], ["missing", "a", "b"], ["a", "missing", "b"]]:
            with self.subTest(names=names):
                self.check_error("cannot read", "many", "2", *names, files={"a": GOOD, "b": SHORT})
