"""The map of the crates: the heads of definitions, who cites them, and the picture."""
import dataclasses
import pathlib
import re
import sys
import unittest
from unittest import mock

from tools import TOP, Case

sys.path.insert(0, str(TOP / "tools"))
import layers  # noqa: E402
import specs  # noqa: E402


@dataclasses.dataclass(frozen=True)
class Crate:
    """What the picture reads of a crate."""

    name: str
    below: tuple
    uses: tuple
    kind: str
    is_program: bool


def crate(name, *lows, kind=""):
    """Makes a crate that uses others, lowest first."""
    below = dict.fromkeys(it for low in lows for it in (*low.below, low))
    return Crate(name, tuple(below), tuple(it.name for it in lows), kind, name == "program")


LOW = crate("low")
LEFT, RIGHT = crate("left", LOW), crate("right", LOW)
PROGRAM = crate("program", LOW, LEFT, RIGHT)
ARCHIVE = crate("archive", LOW, kind="staticlib")
CRATES = [LOW, LEFT, RIGHT, PROGRAM, ARCHIVE]


class Definitions(Case):
    def test_a_head_is_the_first_sentence_of_the_comment(self):
        self.assertEqual("One of a file.rt", specs.head_of("-- One of a file.rt. Two.\nuse x\n"))
        self.assertEqual("One, and more", specs.head_of("-- One,\n-- and more.\nuse x\n"))
        self.assertEqual("", specs.head_of("use x\n-- late\n"))

    def test_a_definition_without_a_head_or_outside_the_list_is_a_fault(self):
        top = self.room / "tree"
        folder = top / "crates/tk_a/specs"
        folder.mkdir(parents=True)
        (folder / "Lib.antt").write_text("pub mod One\n", encoding="utf-8")
        (folder / "One.antt").write_text("pub x : ℕ\n", encoding="utf-8")
        (folder / "Two.antt").write_text("-- Two.\n", encoding="utf-8")
        with mock.patch.object(specs, "ROOT", top):
            self.assertEqual([
                "crates/tk_a/specs/One.antt: no comment at the head says what it defines",
                "crates/tk_a/specs/Two.antt: specs/Lib.antt doesn't list it"], list(specs.faults()))

    def test_each_definition_has_a_head_and_is_cited(self):
        self.assertEqual([], list(specs.faults()))
        status, said, _ = self.run_tool("tools/definitions")
        self.assertEqual(0, status)
        rows = [line.split("\t") for line in said.splitlines()]
        self.assertEqual([str(it.relative_to(TOP)) for it in specs.files()], [it[0] for it in rows])
        self.assertEqual([], [it for it in rows if not all(it)])
        status, said, _ = self.run_tool("tools/definitions", "tk_counter")
        self.assertIn("crates/tk_counter/specs/DescError.antt\t", said)
        self.assertIn("\tsrc/desc_error.rt\n", said)

    def test_a_crate_without_definitions_ends_with_status_2(self):
        self.assertEqual((2, "", "definitions: tkcore has none\n"),
                         self.run_tool("tools/definitions", "tkcore"))


class Picture(Case):
    def test_a_use_through_another_crate_is_not_drawn(self):
        uses = layers.drawn_uses(CRATES)
        self.assertEqual(["left", "right"], uses["program"])
        self.assertEqual({"low": 0, "left": 1, "right": 1, "program": 2, "archive": 1},
                         layers.layer_of(uses))

    def test_a_line_has_a_bend_in_each_layer_between(self):
        uses = {"a": [], "b": ["a"], "c": ["b"], "d": ["c", "a"]}
        lines = layers.paths(uses, layers.layer_of(uses))
        self.assertEqual([["b", "a"], ["c", "b"], ["d", "c"],
                          ["d", ("d", "a", 2), ("d", "a", 1), "a"]], lines)

    def test_no_two_boxes_meet_and_each_kind_has_its_colour(self):
        for crates in CRATES, layers.rattle.product():
            drawn = layers.picture(crates)
            boxes = [tuple(map(float, it)) for it in re.findall(
                r'<rect x="(\S+)" y="(\S+)" width="(\S+)" height="(\S+)" rx="4"', drawn)]
            self.assertEqual(len(crates), len(boxes))
            for place, (x, y, width, height) in enumerate(boxes):
                for left, top, _, _ in boxes[:place]:
                    self.assertTrue(abs(x - left) >= width or abs(y - top) >= height)
            colours = re.findall(r'rx="4" fill="(\S+)"', drawn)
            self.assertEqual([layers.KINDS[layers.kind_of(it)] for it in crates], colours)

    def test_the_stored_picture_is_that_of_crates_txt(self):
        stored = pathlib.Path(TOP / "docs/pictures/crates.svg").read_text(encoding="utf-8")
        self.assertEqual(stored, layers.product())

    def test_the_tool_draws_an_old_picture_anew(self):
        top = self.copy("crates.txt", "crates/tkcore/src", "docs/pictures/crates.svg")
        path = top / "docs/pictures/crates.svg"
        wanted = path.read_text(encoding="utf-8")
        path.write_text("old", encoding="utf-8")
        self.assertEqual((0, "", ""), self.run_tool("tools/draw_crates", top=top))
        self.assertEqual(wanted, path.read_text(encoding="utf-8"))


if __name__ == "__main__":
    unittest.main()
