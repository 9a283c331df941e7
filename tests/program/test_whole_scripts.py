"""Scripts of steered clocks, which are parsed to their ends before any record is carried out."""
from program import DONE, Case, Ending, run
from test_continued import CONTINUED
from test_scripts import number, word

# the read lets the seconds of 30 years begin, which takes more than a minute
OPENING = "open,63,1000,4,4611686018427387903,1704067199,0,1\n"
SLOW = OPENING + "get,4626823298427387902,monotonic_raw\n"
UNKNOWN = SLOW + "get,31,TAI\n"
# a fault is found in milliseconds
SECONDS = 20


class WholeScripts(Case):
    def check_soon(self, ending, *words, given="", files=None):
        """The run ends so, before the read could be carried out."""
        self.assertEqual(ending, run(*words, given=given, files=files, seconds=SECONDS))

    def check_every_way(self, script, fault):
        """The script's fault ends each way to run it soon."""
        files = {"a": script, "b": "0,1\n", "c": "x\n"}
        for words in [], ["replay"], ["replay", "--keep", "1"]:
            self.check_soon(Ending(1, f"script: {fault}", ""), *words, given=script)
        for stamps in "b", "c":
            self.check_soon(Ending(1, f"script: {fault}", ""), "trace", "tai", "a", stamps, files=files)
        self.check_soon(Ending(1, "", f"file,0\nfault,{fault}\nfile,1\nfault,{fault}\n"),
                        "many", "2", "a", "a", files=files)
        self.check_soon(Ending(1, f"file 0: {fault}", ""), "race", "1", "a", files=files)

    def test_a_fault_is_found_before_a_long_read(self):
        self.check_every_way(UNKNOWN, word(3))

    def test_a_fault_in_quotes_is_found_too(self):
        self.check_every_way(UNKNOWN.replace("get", '"get"'), word(3))

    def test_a_fault_is_found_behind_many_records(self):
        self.check_every_way(SLOW + "update,0\n" * 100_000 + "update,x\n", number(100_003))

    def test_the_first_fault_decides(self):
        self.check_every_way(CONTINUED + "get,1,x\nupdate\n", word(2))

    def test_a_stamp_file_is_parsed_before_a_long_read(self):
        self.check_soon(Ending(1, "stamps: " + number(1), ""), "trace", "tai", "a", "b",
                        files={"a": SLOW, "b": "0,x\n"})

    def test_a_script_without_a_later_record_is_whole(self):
        self.check_soon(Ending(0, "", "open,63,1000,4\n"), given=OPENING)
        self.check_soon(DONE, "trace", "tai", "a", "b", files={"a": OPENING, "b": ""})
