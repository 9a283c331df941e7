"""What tools/build_c says of its arguments, before it proves anything."""
import unittest

from tools import Case

USAGE = ("usage: tools/build_c [--backend llvm|rattle] [--machine x86_64|aarch64] "
         "[--libraries LIBRARIES] [FOLDER]\n")


class BuildC(Case):
    def setUp(self):
        super().setUp()
        self.stand_in("rt", "exit 9")

    def test_help_is_printed(self):
        for word in "--help", "-h":
            self.assertEqual((0, USAGE, ""), self.run_tool("tools/build_c", word))

    def test_other_arguments_are_refused(self):
        for words in (["--all"], ["--backend"], ["--backend", "gcc"], ["--machine", "riscv64"],
                      ["--backend", "rattle", "--machine", "aarch64"], ["one", "two"],
                      ["--libraries"]):
            with self.subTest(words):
                self.assertEqual((2, "", USAGE), self.run_tool("tools/build_c", *words))


if __name__ == "__main__":
    unittest.main()
