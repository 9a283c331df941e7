"""Pictures of scripts: the reads that they need, and one sentence where there is none to draw."""
import pathlib
import subprocess
import sys
import unittest

from tools import TOP, Case

sys.path.insert(0, str(TOP / "tools"))
from plot_parts import records  # noqa: E402

MODEL = TOP / "tests/model/model.py"
PYTHON = "/usr/bin/python3"
OPEN = "open,32,16777216,24,0,1700000000,0"  # a cycle is a nanosecond
STEERED = OPEN + ",250"


def has_matplotlib():
    ran = subprocess.run([PYTHON, "-c", "import matplotlib"], capture_output=True, check=False)
    return ran.returncode == 0


class Plot(Case):
    def setUp(self):
        super().setUp()
        self.stand_in("tkcore", f"exec {sys.executable} -B {MODEL}")
        self.tkcore = self.first / "tkcore"
        self.script, self.picture = self.room / "script.csv", self.room / "picture.svg"

    def points(self, clock, *lines):
        """Returns a clock's points: the cycles, and the seconds as text."""
        listed = [line.split(",") for line in lines]
        listed = records.with_reads(listed, records.report(self.tkcore, listed), [clock])
        _, rows = records.rows(listed, records.report(self.tkcore, listed))
        return [(row.cycles, row.answer[2]) for row in rows if row.word == "get"]

    def plot(self, *words):
        return self.run_tool("tools/plot", *words)

    def draw(self, *lines, panels=("monotonic",)):
        self.script.write_text("\n".join(lines) + "\n", encoding="utf-8")
        self.picture.unlink(missing_ok=True)
        return self.plot(str(self.script), str(self.picture), *panels)

    def test_each_command_has_a_read_before_and_after_it(self):
        self.assertEqual(
            [(0, "1700000000.000000000"), (10**9, "1700000001.000000000"),
             (10**9, "1700000006.000000000"), (2 * 10**9, "1700000007.000000000"),
             (2 * 10**9, "1700000007.000000000")],
            self.points("realtime", OPEN, "step,1000000000,5,0", "update,2000000000"))

    def test_a_sleep_takes_no_cycles(self):
        self.assertEqual(
            [(0, "0.000000000"), (10, "0.000000010"), (10, "0.000000010"), (10, "0.000000010"),
             (10, "3.000000010"), (20, "3.000000020"), (20, "3.000000020")],
            self.points("boottime", OPEN, "suspend,10", "resume,500,3,0", "update,510"))

    def test_no_read_is_made_where_a_command_is_refused_as_behind(self):
        self.assertEqual([(0, "0.000000000"), (10, "0.000000010"), (10, "0.000000010")],
                         self.points("monotonic", OPEN, "update,10", "update,5"))

    def test_a_change_of_counter_goes_on(self):
        listed = [line.split(",") for line in (OPEN, "counter,1000,48,33554432,24,7", "update,507")]
        listed = records.with_reads(listed, records.report(self.tkcore, listed), ["monotonic"])
        _, rows = records.rows(listed, records.report(self.tkcore, listed))
        self.assertEqual([(0, 0), (1000, 1000), (1000, 1000), (1000, 1000), (1500, 2000)],
                         [(row.cycles, round(row.seconds * 1e9)) for row in rows][:5])
        self.assertEqual("0.000002000", rows[-1].answer[2])

    def test_running_clocks_begin_where_they_were(self):
        words = "openwords,32,16777216,24,3,100,16777216,0,5,1700000000000000000,0,74,0,5,0,10000"
        self.assertEqual([(0, "1700000005.000000000"), (900, "1700000005.000000900"),
                          (900, "1700000005.000000900")],
                         self.points("realtime", words, "update,1000"))
        listed = [line.split(",") for line in (words, "update,1000")]
        opening, rows = records.rows(listed, records.report(self.tkcore, listed))
        self.assertEqual((3, 100, 1700000005, 4), (opening.commands, opening.reading,
                                                   opening.real_sec, rows[0].commands))

    def test_steered_clocks_are_read_between_their_commands(self):
        points = self.points("realtime", STEERED, "adjtimex,1000000000,0,0,0,0,0,0,0,0,0,0",
                             "update,2000000000")
        self.assertGreater(len(points), 400)
        self.assertEqual((2 * 10**9, "1700000002.000000000"), points[-1])

    @unittest.skipUnless(has_matplotlib(), "there is no matplotlib")
    def test_a_picture_is_drawn_of_each_kind_of_script(self):
        for lines in ([OPEN, "freq,1000,65536", "tick,2000,10001"],
                      [OPEN.replace("open,32,16777216,24", "openhz,32,1000000,600"), "update,9"],
                      [STEERED, "adjtimex,1000,2,0,65536000,0,0,0,0,0,0,0"],
                      [OPEN, "counter,1000,48,33554432,24,7", "update,507", "update,3"]):
            with self.subTest(lines):
                self.assertEqual((0, "", ""), self.draw(*lines, panels=(
                    "monotonic,boottime", "realtime-monotonic", "count")))
                self.assertIn("</svg>", self.picture.read_text(encoding="utf-8"))
                self.assertIn("MONOTONIC", self.picture.read_text(encoding="utf-8"))

    @unittest.skipUnless(has_matplotlib(), "there is no matplotlib")
    def test_what_cannot_be_drawn_is_one_sentence(self):
        cases = [([OPEN, "update,x"], ("tai",), "tkcore: script: record 2: "),
                 ([OPEN, "update,5"], ("now",), "there is no curve 'now'"),
                 ([OPEN, "counter,1000,48,33554432,24,7"], ("reading",),
                  "the script changes its counter, and the curve reading is that of one")]
        for lines, panels, why in cases:
            with self.subTest(why):
                status, said, errors = self.draw(*lines, panels=panels)
                self.assertEqual((1, ""), (status, said))
                self.assertRegex(errors, rf"\Aplot: {why}[^\n]*\n\Z")
                self.assertFalse(self.picture.exists())

    @unittest.skipUnless(has_matplotlib(), "there is no matplotlib")
    def test_files_that_are_not_there_are_one_sentence(self):
        none, picture = str(self.room / "none"), str(self.picture)
        for words in ([none, picture, "tai"], ["--report", none, none, picture, "tai"],
                      ["--tracking", none, picture], ["--table", none, picture, "label"]):
            with self.subTest(words):
                status, said, errors = self.plot(*words)
                self.assertEqual((1, ""), (status, said))
                self.assertRegex(errors, r"\Aplot: [^\n]*No such file[^\n]*\n\Z")

    def test_a_missing_tkcore_is_one_sentence(self):
        with self.assertRaisesRegex(records.Fault, "there is no tkcore, neither in the folder"):
            found = records.shutil.which
            self.addCleanup(setattr, records.shutil, "which", found)
            records.shutil.which = lambda name: None
            records.program(pathlib.Path(self.room))

    def test_help_is_printed_and_other_arguments_are_refused(self):
        status, said, errors = self.plot("--help")
        self.assertEqual((0, ""), (status, errors))
        self.assertIn("tools/plot SCRIPT PICTURE PANEL..", said)
        for words in [], ["one"], ["one", "two"], ["--table", "one"], ["--tracking", *"abc"]:
            with self.subTest(words):
                status, out, errors = self.plot(*words)
                self.assertEqual((2, "", said), (status, out, errors))


if __name__ == "__main__":
    unittest.main()
