"""Figures that pages state: tools/check_docs must find each that the sources have otherwise."""
import sys
import types
import unittest

from tools import TOP

sys.path.insert(0, str(TOP / "tools"))
import figures  # noqa: E402
from ci import CHECKS  # noqa: E402

TABLE = """| Job | Baseline | Ours | Peer | Ratio | Unit | Ratio, native peer |
| --- | --- | --- | --- | --- | --- | --- |
| page_read | Rust | 2.60 | 1.61 | 1.61 | ns/read | 1.72 |
| page_read | C | 2.60 | 4.56 | 0.57 | ns/read | 0.75 |
| now_parts | | 21.40 | | | ns/time | |
| list_4096_copied | Rust | 0.90 | 0.21 | 4.19 | ns/stamp | 4.19 |
"""


def page(name, text):
    return types.SimpleNamespace(name=name, text=text)


class Figures(unittest.TestCase):
    def ratios(self, *items):
        """Returns the faults of README with these items on speed."""
        listed = "".join(f"- {it}\n" for it in items)
        text = f"# A\n\n## Speed\n\nOurs:\n\n{listed}\n## B\n\n- x\n"
        found = {"README.md": page("README.md", text),
                 "bench/README.md": page("bench/README.md", TABLE)}
        return list(figures.other_ratios(found))

    def test_a_ratio_of_the_readme_is_that_of_its_row(self):
        self.assertEqual([], self.ratios("`page_read`, a read, against a seqlock in C: 0.57",
                                         "`page_read`, a read from C, against Rust: 1.61"))
        self.assertEqual(["README.md: page_read 0.63, but bench/README.md has 0.57 against C"],
                         self.ratios("`page_read`, a read, against a seqlock in C: 0.63"))
        self.assertEqual(["README.md: none 0.63, but bench/README.md has None against Rust"],
                         self.ratios("`none`, a read, against Rust: 0.63"))

    def test_an_item_on_speed_names_its_row(self):
        line = "- a read of the page, against a seqlock in C: 0.57"
        why = "README.md: an item on speed isn't '- `JOB`, .. against Rust or C: RATIO'"
        self.assertEqual([f"{why}: {line}"], self.ratios(line[2:]))

    def heads(self, *heads):
        text = TABLE + "".join(f"- **{it}** The reason.\n" for it in heads)
        return list(figures.other_heads({"bench/README.md": page("bench/README.md", text)}))

    def test_a_ratio_in_the_text_on_speed_is_one_of_its_rows(self):
        self.assertEqual([], self.heads("`page_read`, 0.57 against C,\n  and `page_read`, 1.6.",
                                        "`_copied`, 4.19 at 4,096.", "`list`, 4.2.",
                                        "`static`, 3.0 in a trial."))
        self.assertEqual(["bench/README.md: page_read 1.7, but its rows have 0.6, 1.6"],
                         self.heads("`page_read`, 1.7"))
        self.assertEqual(["bench/README.md: now_parts 0.9, but its rows have "],
                         self.heads("`now_parts`, 0.9."))

    def test_each_check_of_ci_has_its_times(self):
        names = (*CHECKS, ".ci/run")
        lines = [f"{it:<16}{7:>6} s {'?':>7} s" for it in names]
        self.assertEqual([], list(figures.wrong_times("# a comment\n\n" + "\n".join(lines))))
        self.assertEqual(["docs/times.txt: no line for rt ci"], list(figures.wrong_times(
            "\n".join(it for it in lines if not it.startswith("rt ci")))))
        self.assertEqual(["docs/times.txt: not NAME N s N s: rt ci 40 minutes"],
                         list(figures.wrong_times("\n".join([*lines, "rt ci 40 minutes"]))))

    def test_no_page_gives_the_time_of_a_tool(self):
        for line in ["| `tools/check_c` | tests | 6 minutes |", "    tools/build_c  # 9 minutes",
                     "`.ci/run` takes about an hour.", "(`rt ci` needs 40 minutes)",
                     "`tools/check_kernel` takes half a minute, or 90 s."]:
            with self.subTest(line):
                self.assertEqual(1, len(list(figures.stated_times(page("a.md", line)))))
        for line in ["`tools/build_program` proves it a second time.", "It takes 5 minutes.",
                     "`rt try` takes a minute.", "crates/tools/a takes 5 s",
                     "`tools/plot` draws 5 sets."]:
            with self.subTest(line):
                self.assertEqual([], list(figures.stated_times(page("a.md", line))))

    def counts(self, text):
        rest = ("The ten words of a snapshot, the eight words of a page, clocks as 15 words with "
                "their counter, and steered clocks with their counter as 33 words. ")
        return list(figures.other_counts({"a.md": page("a.md", rest + text)}))

    def test_numbers_of_words_are_those_of_the_sources(self):
        self.assertEqual([], self.counts("A page has eight words. Ten words of a\nsnapshot."))
        self.assertEqual(["a.md: A page stores ten words, but crates/tk_page/src/packing.rt has 8"],
                         self.counts("A page stores ten words."))
        self.assertEqual(["a.md: snapshot is 8 64-bit words, but include/tkcore.h has 10"],
                         self.counts("A snapshot is 8 64-bit words."))
        self.assertEqual(["a.md: steered clocks as 15 words with their counter, "
                          "but include/tkcore.h has 33"],
                         self.counts("steered clocks as 15 words with their counter"))
        self.assertEqual(["a.md: `tkc_clock_save` stores 14 words, but include/tkcore.h has 15",
                          "a.md: the 13 of `tkc_clock_save`, but include/tkcore.h has 15",
                          "a.md: stores steered clocks as 32 words, but include/tkcore.h has 33"],
                         self.counts("`tkc_clock_save` stores 14 words. It stores steered clocks as "
                                     "32 words: the 13 of `tkc_clock_save`."))
        self.assertEqual(["a.md: words of a snapshot into nine, "
                          "but crates/tk_page/src/packing.rt has 8"],
                         self.counts("It packs the ten words of a snapshot into nine."))

    def sse(self, text):
        """Returns the faults of a page on the calls that use SSE registers."""
        return list(figures.other_sse_calls({"a.md": page("a.md", text)}))

    def test_calls_with_sse_registers_are_those_of_the_header(self):
        listed = "`tkc_snapshot_convert`"
        self.assertEqual([], self.sse(f"Only these use SSE registers:\n  {listed} (`sse_calls`)."))
        self.assertEqual([], self.sse(f"| SSE | in most calls | only in {listed} |"))
        fault = "a.md: SSE registers: not as in include/tkcore.h: "
        for form in "Only these use SSE registers: {}.", "| in most calls | only in {} |":
            self.assertEqual([f"{fault}tkc_ntp_save tkc_snapshot_convert"],
                             self.sse(form.format("`tkc_ntp_save`")))
            self.assertEqual([f"{fault}tkc_ntp_leap"], self.sse(form.format(f"`tkc_ntp_leap`,\n{listed}")))
            self.assertEqual([f"{fault}tkc_ntp_leap tkc_ntp_save"],
                             self.sse(form.format(f"{listed}, `tkc_ntp_leap` and `tkc_ntp_save`")))

    def test_the_number_of_these_calls_is_the_headers(self):
        self.assertEqual([], self.sse("All calls except one may then be made in any context."))
        self.assertEqual(["a.md: All calls except eight may then be made in any context, "
                          "but include/tkcore.h lists 1"],
                         self.sse("All calls except eight may then be\nmade in any context."))
        self.assertEqual(["a.md: seven calls on steered clocks use SSE registers, "
                          "but include/tkcore.h lists 0"],
                         self.sse("and seven calls on steered clocks use SSE registers"))
