"""Any toolchain of the logic serves, and no tool works with one of another logic."""
import shutil
import unittest

from tools import LOGIC, Case

TOOLS = ("tools/build_program", "tools/must_fail", "tools/build_c", "tools/check_c",
         "tools/check_using", "tools/check_program", "tools/check_kernel", "bench/run", ".ci/run")


class Versions(Case):
    def test_another_logic_ends_each_tool_with_one_sentence(self):
        version = "rattle-kit-99z logic 0123456789abcdef"
        self.stand_in("rt", f'[ "$1" = version ] || exit 70\necho "{version}"')
        for tool in TOOLS:
            with self.subTest(tool):
                sentence = f"{tool}: needs logic {LOGIC}, rt version prints {version}\n"
                self.assertEqual((2, "", sentence), self.run_tool(tool))

    def test_no_toolchain_ends_a_tool_with_one_sentence(self):
        self.stand_in("rt", "exit 127")
        sentence = f"tools/build_program: needs logic {LOGIC}, rt version prints nothing\n"
        self.assertEqual((2, "", sentence), self.run_tool("tools/build_program"))

    @unittest.skipUnless(shutil.which("rt"), "there is no toolchain")
    def test_another_kit_of_the_logic_proves_a_crate_and_refuses_its_edits(self):
        self.stand_in_for_rt(f"rattle-kit-99z logic {LOGIC}")
        top = self.copy("crates.txt", "HANDLES", "crates/tk_counter")
        status, said, _ = self.run_tool("tools/must_fail", "tk_counter", top=top)
        self.assertEqual(0, status, said)
        self.assertIn("must_fail: 1 edits of 1 crates refused, 0 not\n", said)


if __name__ == "__main__":
    unittest.main()
