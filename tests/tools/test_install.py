"""The files that tools/install puts below a prefix."""
import subprocess

from tools import Case

LIBRARY = ["include/tkcore.h", "include/tkcore_session.h", "lib/libtkcore.a",
           "lib/libtkcore_session.a", "lib/libtkcore.so", "lib/libtkcore.so.0",
           "lib/pkgconfig/tkcore-session.pc", "lib/pkgconfig/tkcore.pc", "share/doc/tkcore/C.md",
           "share/man/man3/tkcore.3"]
LICENCES = ["share/doc/tkcore/LICENSE-APACHE", "share/doc/tkcore/LICENSE-MIT"]
COMPLETION = ["share/bash-completion/completions/{}", "share/zsh/site-functions/_{}"]
PLOT = ["bin/tkcore-plot", *(f"share/tkcore/plot_parts/{it}.py"
                             for it in ("panels", "records", "tables"))]
PROGRAM = ["bin/tkcore", "share/man/man1/tkcore.1", *PLOT,
           *(it.format("tkcore") for it in COMPLETION)]
RUN_BUILT = ["bin/tkrun", "lib/libtkrun-net.so", "lib/libtkrun-turns.so", "lib/libtkrun.so",
             "share/man/man1/tkrun.1"]
RUN = [*RUN_BUILT, "share/doc/tkcore/RUN.md", *(it.format("tkrun") for it in COMPLETION)]


class Install(Case):
    def setUp(self):
        super().setUp()
        self.top = self.copy("docs", "LICENSE-APACHE", "LICENSE-MIT")
        self.prefix = self.room / "prefix"

    def build(self, names):
        """Makes what the tools that build would leave in dist/."""
        for name in names:
            path = self.top / "dist" / name
            path.parent.mkdir(parents=True, exist_ok=True)
            path.write_text(name, encoding="utf-8")
            path.chmod(0o755)

    def build_library(self):
        self.build(name for name in LIBRARY if not name.startswith("share/doc"))

    def check(self, names, *words):
        """These files are installed and printed, and no others."""
        status, said, errors = self.run_tool("tools/install", *words, str(self.prefix),
                                             top=self.top)
        self.assertEqual((0, ""), (status, errors))
        found = [str(it) for it in self.prefix.rglob("*") if not it.is_dir()]
        self.assertEqual(sorted(f"{self.prefix}/{name}" for name in names), sorted(found))
        self.assertEqual(sorted(found), sorted(said.split()))

    def test_the_program_alone(self):
        self.build(["bin/tkcore"])
        self.check(PROGRAM + LICENCES)

    def test_the_program_that_needs_no_c_library(self):
        self.build(["bin/tkcore", "bin/tkcore-static"])
        self.check([*PROGRAM, "lib/tkcore/tkcore-static"] + LICENCES)

    def test_the_library_alone(self):
        self.build_library()
        self.check(LIBRARY + LICENCES, "--library")
        self.assertEqual("libtkcore.so.0", str((self.prefix / "lib/libtkcore.so").readlink()))

    def test_both(self):
        self.build(["bin/tkcore"])
        self.build_library()
        self.check(PROGRAM + LIBRARY + LICENCES)
        self.assertEqual(0o755, (self.prefix / "bin/tkcore").stat().st_mode & 0o777)

    def build_run(self):
        self.build(RUN_BUILT)

    def test_the_installed_plot_finds_its_parts(self):
        self.build(["bin/tkcore"])
        self.check(PROGRAM + LICENCES)
        ran = subprocess.run([self.prefix / "bin/tkcore-plot", "--help"], capture_output=True,
                             text=True, check=False)
        self.assertEqual((0, ""), (ran.returncode, ran.stderr))

    def test_tkrun_too(self):
        self.build(["bin/tkcore"])
        self.build_library()
        self.build_run()
        self.check(PROGRAM + LIBRARY + RUN + LICENCES)

    def test_the_library_with_tkrun_and_without_the_program(self):
        self.build_library()
        self.build_run()
        self.check(LIBRARY + RUN + LICENCES, "--library")

    def test_the_program_with_tkrun_and_without_the_library(self):
        self.build(["bin/tkcore"])
        self.build_run()
        self.check(PROGRAM + RUN + LICENCES)

    def test_tkrun_is_not_the_library(self):
        self.build_run()
        status, said, errors = self.run_tool("tools/install", "--library", str(self.prefix),
                                             top=self.top)
        self.assertEqual((1, ""), (status, said))
        self.assertIn("the library isn't built", errors)
        self.assertFalse(self.prefix.exists())

    def test_nothing_is_installed_before_it_is_built(self):
        for words in [], ["--library"]:
            status, said, errors = self.run_tool("tools/install", *words, str(self.prefix),
                                                 top=self.top)
            self.assertEqual((1, ""), (status, said))
            self.assertIn("isn't built", errors)
            self.assertFalse(self.prefix.exists())

    def test_other_arguments_are_refused(self):
        usage = "usage: [DESTDIR=FOLDER] [LIBDIR=lib] tools/install [--library] PREFIX\n"
        for words in [], [""], ["-h"], ["--library"], ["one", "two"]:
            with self.subTest(words):
                self.assertEqual((2, "", usage),
                                 self.run_tool("tools/install", *words, top=self.top))
