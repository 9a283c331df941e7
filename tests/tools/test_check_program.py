"""What tools/check_program makes of a program whose text in release/ is another one."""
import unittest

from tools import LOGIC, Case

HARNESS = "bad_input.sh", "bad_files.sh", "refuse_each.sh", "refuse_tests", "check_counts", "check_perf"
CRATES = ("page", "shared", "shared_steered", "race", "keeper", "replay", "program")
# lists one test, and prints what the library that counts between two marks would
TESTS = """case $1 in
--list) echo "one: test" ;;
*_without_any_work) echo "count_between: nothing between two marks" ;;
*) for pair in $(seq 25); do echo "count_between: a pair with 1"; done ;;
esac"""
ONE = """import unittest
class One(unittest.TestCase):
    def test_one(self):
        pass"""


class CheckProgram(Case):
    """Runs the tool over stand-ins for all that it runs but itself."""

    def setUp(self):
        super().setUp()
        self.top = self.copy("crates.txt", "tests/harness/count_between.c")
        self.stand_in("rt", f'echo "rattle-kit-99z logic {LOGIC}"')
        self.write("tools/packages.txt", "check_program sh sh all")
        for name in HARNESS:
            self.write(f"tests/harness/{name}", "exit 0")
        for name in "compare", "session":
            self.write(f"tests/model/{name}.py", "exit 0")
        self.write("crates/tk_session_reports/out/tk_session_reports", "exit 0")
        self.write("tests/program/test_one.py", ONE)
        self.write("crates/tkcore/out/tkcore", "exit 0")
        for name in CRATES:
            self.write(f"crates/tk_{name}_tests/out/tk_{name}_tests_tests", TESTS)
        self.write("tools/release", "exit 0")
        self.write("tests/program/under_qemu", "echo all runs are the same")
        for name in "aarch64-linux-gnu-gcc", "qemu-aarch64":
            self.stand_in(name, "exit 0")

    def write(self, name, script):
        path = self.top / name
        path.parent.mkdir(parents=True, exist_ok=True)
        path.write_text(f"#!/bin/sh\n{script}\n", encoding="utf-8")
        path.chmod(0o755)

    def run_check(self, *words):
        status, said, errors = self.run_tool("tools/check_program", *words, top=self.top)
        self.assertEqual("", errors)
        return status, said

    def test_another_text_fails_the_check(self):
        libraries = self.room / "libraries"
        asked = f"--keep {libraries} --compare-program"
        self.write("tools/release", f"""case $* in
"{asked} x86_64" | "{asked} aarch64") ;;
*) exit 3 ;;
esac""")
        status, said = self.run_check("--libraries", str(libraries), "10")
        self.assertEqual(0, status, said)
        self.assertNotIn("left out: the program's text", said)
        for machine, part in ("x86_64", "text"), ("aarch64", "text_aarch64"):
            self.assertIn(f"check_program: {part}: 1 lines, the last: release/ has the program's text "
                          f"for {machine}\n", said)
        for machine, part in ("x86_64", "text"), ("aarch64", "text_aarch64"):
            self.write("tools/release",
                       f'[ "$*" != "{asked} {machine}" ] || {{ echo another text; exit 1; }}')
            status, said = self.run_check("--libraries", str(libraries))
            self.assertEqual((1, 1), (status, said.count("FAILED")))
            self.assertIn(f"another text\ncheck_program: {part} FAILED\n", said)

    def test_without_proved_libraries_the_text_is_left_out(self):
        self.write("tools/release", "exit 3")
        status, said = self.run_check()
        self.assertEqual(0, status, said)
        for machine in "x86_64", "aarch64":
            self.assertIn(f"left out: the program's text for {machine}: no --libraries\n", said)

    def test_another_outcome_on_aarch64_fails_the_check(self):
        program = f"{self.top}/crates/tkcore/out/tkcore"
        self.write("tests/program/under_qemu", f'[ "$*" != "{program}" ]')
        status, said = self.run_check()
        self.assertEqual(1, status, said)
        self.assertIn("check_program: under_qemu FAILED\n", said)

    def test_other_arguments_are_refused(self):
        usage = "usage: tools/check_program [--libraries LIBRARIES] [SCRIPTS]\n"
        for words in (["all"], [""], ["1", "2"], ["--libraries"]):
            with self.subTest(words):
                self.assertEqual((2, "", usage),
                                 self.run_tool("tools/check_program", *words, top=self.top))


if __name__ == "__main__":
    unittest.main()
