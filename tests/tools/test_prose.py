"""Lines and sentences of the pages: tools/check_docs must find each that is too long."""
import sys
import types
import unittest

from tools import TOP

sys.path.insert(0, str(TOP / "tools"))
import prose  # noqa: E402

WORDS = " ".join(["word"] * 15) + "\n" + " ".join(["word"] * 14)


def page(text, name="docs/DECISIONS.md"):
    return types.SimpleNamespace(name=name, text=text, prose=list(enumerate(text.split("\n"), 1)))


def counts(text):
    return [len(words) for _, words in prose.sentences(page(text))]


class Prose(unittest.TestCase):
    def test_sentences_end_before_a_capital_a_digit_or_code(self):
        self.assertEqual([2, 3, 2, 2], counts("One two. Three 4.5 five! `six` `7 8`? 9 ten."))
        self.assertEqual([5], counts("Callers 0, 1, .. in order."))
        self.assertEqual([2, 2], counts("- **One two.** Three four."))

    def test_items_cells_quotations_and_headings_are_texts(self):
        self.assertEqual([2, 2], counts("# A title\n- one\n  two\n- three four"))
        self.assertEqual([1, 2, 1], counts("| one | two three | four |"))
        self.assertEqual([4], counts("> one two\n> three four"))
        self.assertEqual([2], counts("one [two](three/four.md#five)"))

    def test_a_sentence_has_at_most_30_words_on_three_pages(self):
        self.assertEqual([], list(prose.faults(page(f"{WORDS} end."))))
        self.assertEqual([], list(prose.faults(page(f"{WORDS} and more.", "README.md"))))
        fault = "docs/DECISIONS.md:2: a sentence of 31 words, more than 30: word word word"
        found = list(prose.faults(page(f"\n{WORDS} and more.")))
        self.assertEqual([f"{fault} word word word .."], found)

    def test_lines_have_100_columns_except_in_tables(self):
        self.assertEqual(["x.md:1: 101 columns, more than 100"],
                         list(prose.faults(page("a" * 101 + "\n| " + "b" * 101, "x.md"))))


if __name__ == "__main__":
    unittest.main()
