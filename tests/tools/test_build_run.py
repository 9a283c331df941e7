"""What tools/build_run says if it can't build tkrun."""
import unittest

from tools import Case

GCC = """case $1 in
-dumpmachine) echo {machine} ;;
-dM) printf '%s\\n' '{glibc}' ;;
*) exit 70 ;;
esac"""
USAGE = "usage: tools/build_run [--optional] [FOLDER]\n"
FIRST = "#define __GLIBC__ 2\n#define __GLIBC_MINOR__ 32"  # the oldest that serves
OLD = "#define __GLIBC__ 2\n#define __GLIBC_MINOR__ 31"


class BuildRun(Case):
    def setUp(self):
        super().setUp()
        self.top = self.copy("include")
        self.archives = [self.top / f"dist/lib/lib{it}.a" for it in ("tkcore", "tkcore_session")]
        self.archives[0].parent.mkdir(parents=True)
        for archive in self.archives:
            archive.touch()

    def fails(self, sentence, machine="x86_64-linux-gnu", glibc=OLD, optional_too=True):
        """It fails with this sentence, with --optional only if that is for no other C library."""
        self.stand_in("gcc", GCC.format(machine=machine, glibc=glibc))
        self.assertEqual((1, "", f"build_run: {sentence}\n"),
                         self.run_tool("tools/build_run", top=self.top))
        given = (1, "", f"build_run: {sentence}\n") if optional_too else (
            0, f"build_run: left out: tkrun: {sentence}\n", "")
        self.assertEqual(given, self.run_tool("tools/build_run", "--optional", top=self.top))
        self.assertFalse((self.top / "dist/bin").exists())

    def test_another_processor_is_one_sentence(self):
        self.fails("gcc builds for aarch64-linux-gnu, and tkrun is for x86-64 only",
                   "aarch64-linux-gnu")

    def test_an_old_glibc_is_one_sentence(self):
        self.fails("gcc's C library is glibc 2.31, and tkrun needs glibc 2.32 or later",
                   optional_too=False)

    def test_another_c_library_is_one_sentence(self):
        self.fails("gcc's C library is no glibc, and tkrun needs glibc 2.32 or later",
                   glibc="#define __linux__ 1", optional_too=False)

    def test_a_missing_static_library_is_one_sentence(self):
        self.fails("there is no static C library, which tkrun is linked to", glibc=FIRST,
                   optional_too=False)

    def test_a_missing_library_is_one_sentence(self):
        for archive in self.archives:
            archive.unlink()
            self.fails(f"{archive} isn't there; make assembles it, and tools/build_c proves it")
            archive.touch()

    def test_help_is_printed_and_other_arguments_are_refused(self):
        for word in "--help", "-h":
            self.assertEqual((0, USAGE, ""), self.run_tool("tools/build_run", word))
        for words in ["--all"], ["one", "two"], ["--optional", "one", "two"], ["one", "--optional"]:
            self.assertEqual((2, "", USAGE), self.run_tool("tools/build_run", *words))


if __name__ == "__main__":
    unittest.main()
