# SPDX-License-Identifier: MIT OR Apache-2.0
"""The numbers of the package are those of the headers."""
import re
import unittest

import tkcore
from support import ROOT, exception
from tkcore.errors import BY_CODE

HEADER = (ROOT / "include" / "tkcore.h").read_text(encoding="utf-8")
PAGE_HEADER = (ROOT / "include" / "tkcore_page.h").read_text(encoding="utf-8")


def enum(name, prefix):
    body = re.search(rf"enum {name} {{(.*?)}};", HEADER, re.S).group(1)
    return {word: int(number) for word, number in re.findall(rf"\b{prefix}(\w+) = (\d+)", body)}


class Numbers(unittest.TestCase):
    def test_clocks(self):
        self.assertEqual(enum("tkc_clock_id", "TKC_CLOCK_"), dict(tkcore.ClockId.__members__))

    def test_commands(self):
        self.assertEqual(enum("tkc_command", "TKC_CMD_"), dict(tkcore.Command.__members__))

    def test_codes(self):
        codes = enum("tkc_code", "TKC_")
        codes.update((word, int(number)) for word, number in
                     re.findall(r"^#define TKC_(BUSY|BAD_LAYOUT) (\d+)$", PAGE_HEADER, re.M))
        del codes["OK"]
        self.assertEqual({number: exception(word) for word, number in codes.items()}, BY_CODE)


if __name__ == "__main__":
    unittest.main()
