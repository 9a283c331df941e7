"""Races of scripts."""
from program import OPENING, SHORT, SHORT_FAULT, Case

# three updates (a race doesn't use their readings)
UPDATES = OPENING + "update,9\nupdate,1\nupdate,4294967295\n"

# two reads, a command that is refused, and two that are not
MIXED = OPENING + "get,5,tai\ntai,0,100001\ntai,0,37\nget,0,monotonic\nupdate,0\n"

# three updates of a counter of 64 bits at 1 ns per cycle
NANOSECONDS = "open,64,16777216,24,0,1700000000,0\n" + "update,0\n" * 3

# five commands and a read of a counter of 64 bits at about 4 ms per cycle
MILLISECONDS = """\
open,64,4194304,0,0,1700000000,0
update,0
get,0,tai
update,0
tai,0,37
update,0
update,0
"""


class Races(Case):
    def check_race(self, text, step, names, files):
        with self.subTest(step=step, names=names):
            self.check_text(text, "race", step, "--", *names, files=files)

    def check_stops(self, error, names, files):
        with self.subTest(names=names):
            self.check_error(error, "race", "1", *names, files=files)

    def test_scripts_race(self):
        files = {"a": UPDATES, "-b": MIXED}
        for step, names, text in [
                ("01000", ["a"], "entries,3\nactor,0,3,0\n"),
                ("1000", ["a", "a"], "entries,6\nactor,0,3,0\nactor,1,3,0\n"),
                ("0", ["-b", "a"], "entries,5\nactor,0,2,1\nactor,1,3,0\n"),
                ("18446744073709551615", ["a", "-b"], "entries,0\nactor,0,0,3\nactor,1,0,3\n")]:
            self.check_race(text, step, names, files)

    def test_a_step_of_more_than_32_bits_is_taken_whole(self):
        # as by `tests/model/model.py race`; the low half of each refused step would be accepted
        files = {"ns": NANOSECONDS, "ms": MILLISECONDS}
        for step, name, text in [("500000000000000000", "ns", "entries,1\nactor,0,1,2\n"),
                                 ("68719476737", "ms", "entries,3\nactor,0,3,2\n"),
                                 ("4294967297", "ms", "entries,5\nactor,0,5,0\n")]:
            self.check_race(text, step, [name], files)

    def test_sixty_four_files_race(self):
        actors = "".join(f"actor,{it},3,0\n" for it in range(64))
        self.check_race(f"entries,192\n{actors}", "1", ["a"] * 64, {"a": UPDATES})

    def test_the_first_fault_of_the_files_ends_it(self):
        files = {"a": UPDATES, "b": SHORT, "c": ""}
        second, empty, unread = f"file 1: {SHORT_FAULT}", "file 0: no record", "cannot read"
        for names, error in [(["a", "b"], second), (["a", "b", "a"], second),
                             (["a", "b", "missing"], second), (["c", "missing", "b"], empty),
                             (["missing", "c", "b"], unread), (["a", "missing", "b"], unread),
                             (["a", "a", "missing"], unread)]:
            self.check_stops(error, names, files)

    def test_scripts_that_open_differently_do_not_race(self):
        files = {"a": UPDATES, "b": SHORT, "same": OPENING,
                 "reading": "open,32,16777216,24,1,1700000000,0\n",
                 "time": "open,32,16777216,24,0,1700000000,1\n",
                 "counter": "open,31,16777216,24,0,1700000000,0\n"}
        for names in [["a", "reading"], ["a", "time"], ["a", "counter"], ["counter", "a", "a"],
                      ["a", "same", "time", "a"]]:
            self.check_stops("openings differ", names, files)
        self.check_stops(f"file 2: {SHORT_FAULT}", ["a", "time", "b"], files)

    def test_openings_are_compared_by_their_values(self):
        by_frequency = "openhz,32,24000000,600,0,1,0\nupdate,0\n"
        self.check_race("entries,1\nactor,0,1,0\nactor,1,0,0\n", "1", ["a", "b"],
                        {"a": by_frequency, "b": "open,32,699050667,24,0,1,0\n"})
        for other in ["open,32,699050667,24,1,1,0", "open,32,699050667,24,0,1,1",
                      "open,32,699050667,24,0,2,0", "open,31,699050667,24,0,1,0",
                      "open,32,699050666,24,0,1,0", "open,32,699050667,23,0,1,0"]:
            files = {"a": by_frequency, "b": f"{other}\n"}
            self.check_stops("openings differ", ["a", "b"], files)
            self.check_stops("openings differ", ["b", "a"], files)

    def test_sixty_five_files_are_too_many(self):
        files = {"a": OPENING, "b": SHORT, "c": "open,8,256,0,1,0,0\n"}
        names = ["a"] * 65
        self.check_stops("count out of range", names, files)
        for place, name, error in [(64, "c", "openings differ"),
                                   (63, "b", f"file 63: {SHORT_FAULT}"),
                                   (0, "missing", "cannot read")]:
            names[place] = name
            self.check_stops(error, names, files)
