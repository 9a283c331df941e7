"""What `make` builds from a text in release/, and what it says if it can't."""
import hashlib
import os
import re
import shutil
import subprocess
import unittest

from tools import TOP, Case

SHARED = "libtkcore.so.0"
SESSION = "libtkcore_session.a"
# what `make check` runs
PARTS = ["check_run", "check_c-calls", "check_c-pages", "check_c-orders", "check_c-uses",
         "check_c-definitions"]
CALLER = """#include <tkcore.h>
int main(void) { return tkc_version() != 7; }
"""
SESSION_CALLER = """#include <tkcore_session.h>
int main(void) { static struct tkc_session it; return tkc_session_records(&it) != 7; }
"""


def text(name="tkcore.h"):
    """Returns a text with each function that a header declares. tkc_version returns 7."""
    header = (TOP / "include" / name).read_text(encoding="utf-8")
    plain = re.sub(r"^TKC_INLINE.*?^}", "", header, flags=re.M | re.S)
    names = sorted(set(re.findall(r"\b(tkc_[a-z_]+)\(", plain)))
    lines = [f".globl {name}\n.type {name}, @function\n{name}: mov $7, %eax\nret" for name in names]
    return "\n".join([".text", *lines, '.section .note.GNU-stack,"",@progbits', ""])


class Make(Case):
    def setUp(self):
        super().setUp()
        self.top = self.copy("Makefile", "include", "examples/c", "docs/tkcore.3", "docs/C.md",
                             "LICENSE-APACHE", "LICENSE-MIT")
        self.text = self.top / "release/x86_64/tkcore.s"
        self.text.parent.mkdir(parents=True)
        self.text.write_text(text(), encoding="utf-8")
        self.session = self.text.parent / "session.s"
        self.session.write_text(text("tkcore_session.h"), encoding="utf-8")
        sums = "".join(f"{hashlib.sha256(it.read_bytes()).hexdigest()}  x86_64/{it.name}\n"
                       for it in (self.text, self.session))
        (self.top / "release/MANIFEST").write_text(f"# What they are\n\n[library]\n{sums}",
                                                   encoding="utf-8")

    def make(self, *words):
        """Runs make with the stand-ins. Returns its status, its output and its errors."""
        found = {**os.environ, "PATH": f"{self.first}:{os.environ['PATH']}", "LC_ALL": "C"}
        found.pop("MAKEFLAGS", None)
        ran = subprocess.run(["make", "-s", *words], cwd=self.top, env=found, check=False,
                             capture_output=True, text=True, stdin=subprocess.DEVNULL)
        return ran.returncode, ran.stdout, ran.stderr

    def make_library(self):
        self.assertEqual((0, "", ""), self.make("clean"))
        self.assertEqual((0, f"assemble: made {self.top}/dist\n", ""),
                         self.make("dist/lib/libtkcore.a"))
        # (tkrun needs the true library)
        (self.top / "dist/bin").mkdir()
        (self.top / "dist/bin/tkrun").touch()

    def install(self, libdir):
        self.make_library()
        status, said, errors = self.make("install", f"DESTDIR={self.room}/to", "PREFIX=/opt/tk",
                                         f"LIBDIR={libdir}")
        self.assertEqual((0, ""), (status, errors))
        prefix = self.room / "to/opt/tk"
        for name in ("include/tkcore.h", f"{libdir}/libtkcore.a", f"{libdir}/{SHARED}",
                     "include/tkcore_session.h", f"{libdir}/{SESSION}",
                     f"{libdir}/pkgconfig/tkcore-session.pc",
                     f"{libdir}/pkgconfig/tkcore.pc", "share/man/man3/tkcore.3"):
            self.assertIn(f"{prefix}/{name}", said.split())
            self.assertTrue((prefix / name).is_file(), name)
        self.assertEqual(SHARED, str((prefix / libdir / "libtkcore.so").readlink()))
        return prefix

    def check_pkg_config(self, prefix, libdir):
        """pkg-config's flags build a program that finds the library there."""
        found = {**os.environ, "PKG_CONFIG_PATH": prefix / libdir / "pkgconfig"}
        for name, caller in ("tkcore", CALLER), ("tkcore-session", SESSION_CALLER):
            flags = subprocess.run(["pkg-config", "--cflags", "--libs", name], check=True,
                                   capture_output=True, text=True, env=found).stdout.split()
            self.assertEqual([f"-I{prefix}/include", f"-L{prefix}/{libdir}"],
                             [os.path.normpath(it) if it[:2] in ("-I", "-L") else it
                              for it in flags[:2]])
            subprocess.run(["gcc", "-x", "c", "-", "-o", self.room / "caller", *flags],
                           input=caller, text=True, check=True)
            subprocess.run([self.room / "caller"], check=True,
                           env={"LD_LIBRARY_PATH": prefix / libdir})

    def check_cmake(self, prefix, libdir):
        project = self.room / "project"
        project.mkdir()
        shutil.copy(TOP / "tests/c/CMakeLists.txt", project)
        (project / "convert.c").write_text(CALLER, encoding="utf-8")
        (project / "session_links.c").write_text(SESSION_CALLER, encoding="utf-8")
        for words in (["-S", project, "-B", project / "out", "-DWANTED=0",
                       f"-Dtkcore_DIR={prefix}/{libdir}/cmake/tkcore"],
                      ["--build", project / "out"]):
            subprocess.run(["cmake", *words], check=True, capture_output=True)
        for name in "shared", "static", "session":
            subprocess.run([project / "out" / name], check=True)

    def test_the_library_is_installed_where_each_system_looks_for_it(self):
        for libdir in "lib", "lib64", "lib/x86_64-linux-gnu":
            with self.subTest(libdir):
                prefix = self.install(libdir)
                if shutil.which("pkg-config"):
                    self.check_pkg_config(prefix, libdir)
                if shutil.which("cmake"):
                    self.check_cmake(prefix, libdir)
                    shutil.rmtree(self.room / "project")
                shutil.rmtree(self.room / "to")

    def test_the_archive_is_the_same_in_another_folder(self):
        self.make_library()
        names = "libtkcore.a", SHARED, SESSION
        once = [(self.top / "dist/lib" / name).read_bytes() for name in names]
        other = self.room / "another/folder"
        shutil.copytree(self.top, other)
        self.top = other
        self.make_library()
        self.assertEqual(once, [(self.top / "dist/lib" / name).read_bytes() for name in names])

    def test_a_changed_text_is_built(self):
        self.make_library()
        archive = self.top / "dist/lib" / SESSION
        once, built = archive.read_bytes(), archive.stat().st_mtime
        self.session.write_text(text("tkcore_session.h").replace("$7", "$8"), encoding="utf-8")
        os.utime(self.session, (built + 1, built + 1))
        self.assertEqual(0, self.make("dist/lib/libtkcore.a")[0])
        self.assertNotEqual(once, archive.read_bytes())

    def test_a_changed_text_is_found(self):
        self.text.write_text(text().replace("$7", "$8"), encoding="utf-8")
        status, said, errors = self.make("check")
        self.assertEqual((2, "x86_64/tkcore.s: FAILED\n"), (status, said))
        self.assertIn("make: a text in release/ isn't the one that release/MANIFEST lists\n", errors)

    def write_check(self, name, script):
        path = self.top / "tools" / name
        path.write_text(f"#!/bin/bash\nname=$(basename $0)${{3:+-$3}}\n{script}\n", encoding="utf-8")
        path.chmod(0o755)

    def check_with(self, script, *words):
        """Runs `make check` with a script for each part. Returns its status, what the parts print, and
        the errors."""
        self.make_library()
        (self.top / "dist/bin/report").touch()
        for name in "check_c", "check_run":
            self.write_check(name, script)
        (self.top / "dist/bin/tkrun").chmod(0o755)
        (self.top / "dist/bin/tkcore").write_text("#!/bin/sh\n", encoding="utf-8")
        (self.top / "dist/bin/tkcore").chmod(0o755)
        status, said, errors = self.make("check", *words)
        return status, said.splitlines()[1:], errors

    def test_as_many_parts_run_at_once_as_there_are_processors(self):
        self.stand_in("nproc", f"echo {len(PARTS)}")
        met = self.room / "met"
        met.mkdir()
        status, said, errors = self.check_with(
            f"echo $name begins\n: >{met}/$name\n"
            f"for ((i = 0; i < 30000; i++)); do\n[ $(ls {met} | wc -l) != {len(PARTS)} ] || break\n"
            "sleep 0.01\ndone\n[ $i = 30000 ] || echo $name ends")
        self.assertEqual((0, ""), (status, errors))
        # (what each part prints stays together)
        self.assertEqual([[f"{it} begins", f"{it} ends"] for it in sorted(PARTS)],
                         sorted(said[i:i + 2] for i in range(0, len(said), 2)))

    def test_no_more_parts_run_at_once_than_make_may(self):
        self.stand_in("nproc", f"echo {len(PARTS)}")
        for words, most in ([], len(PARTS)), (["-j2"], 2):
            running = self.room / f"running{most}"
            running.mkdir()
            status, said, errors = self.check_with(
                f": >{running}/$name\n[ $(ls {running} | wc -l) -le {most} ] || echo too many\n"
                f"sleep 0.1\nrm {running}/$name\necho $name", *words)
            self.assertEqual((0, sorted(PARTS), ""), (status, sorted(said), errors))

    def test_each_part_is_run_and_one_that_fails_is_named(self):
        for part in PARTS:
            status, said, errors = self.check_with(f"echo $name\n[ $name != {part} ]")
            self.assertEqual((2, sorted(PARTS)), (status, sorted(said)))
            self.assertIn(f"{part.replace('_c-', '-').replace('_', '-')}] Error 1", errors)

    def test_the_parts_are_those_of_the_library(self):
        text = (TOP / "tools/check_c").read_text(encoding="utf-8")
        parts = re.search(r"parts=\(([a-z ]+)\)", text)[1].split()
        self.assertEqual(["check_run", *(f"check_c-{it}" for it in parts)], PARTS)
        makefile = (TOP / "Makefile").read_text(encoding="utf-8")
        self.assertEqual(parts, re.search(r"^PARTS = (.*)$", makefile, re.M)[1].split())

    def test_each_check_of_the_library_is_called(self):
        text = (TOP / "tools/check_c").read_text(encoding="utf-8")
        code = re.sub(r"^\s*#.*$", "", text, flags=re.M)
        names = re.findall(r"^(check_\w+)\(\)", code, re.M)
        self.assertGreater(len(names), 30)
        called = re.findall(r"\b(check_\w+)\b(?!\(\)|:)", code)
        for name in sorted(set(names) - {f"check_{it}" for it in ("llvm", "rattle")}):
            self.assertIn(name, called)

    def test_without_the_program_the_library_is_checked(self):
        self.make_library()
        (self.top / "dist/bin/report").touch()
        self.write_check("check_c", "echo $*")
        status, said, errors = self.make("check", "-j1")
        self.assertEqual((0, ""), (status, errors))
        self.assertEqual(["make: tests what is in dist/, and prints it at the end",
                          *sorted(f"--built dist {it.partition('-')[2]}" for it in PARTS[1:])],
                         sorted(said.splitlines(), key=lambda it: (it.startswith("--"), it)))

    def test_a_function_that_the_header_lacks_is_found(self):
        self.text.write_text(text() + ".text\n.globl tkc_more\ntkc_more: ret\n", encoding="utf-8")
        status, _, errors = self.make("dist/lib/libtkcore.a")
        self.assertEqual(2, status)
        self.assertIn("> tkc_more\n", errors)
        self.assertIn("the header (<) and the shared object (>) have other functions\n", errors)

    def test_an_unknown_function_that_the_text_calls_is_found(self):
        self.text.write_text(text() + ".text\ncall there\n", encoding="utf-8")
        status, _, errors = self.make("dist/lib/libtkcore.a")
        self.assertEqual(2, status)
        self.assertIn("tools/c/folder: the archive needs of other files: there\n", errors)

    def fails_with_session(self, source, why):
        """Builds with these lines more in the text of sessions."""
        self.session.write_text(text("tkcore_session.h") + source, encoding="utf-8")
        status, _, errors = self.make("dist/lib/libtkcore.a")
        self.assertEqual(2, status)
        self.assertIn(why, errors)

    def test_sessions_may_call_only_four_functions(self):
        calls = ".text\n" + "".join(f"call mem{it}\n" for it in ("cpy", "move", "set", "cmp"))
        self.session.write_text(text("tkcore_session.h") + calls, encoding="utf-8")
        self.make_library()
        self.fails_with_session(f"{calls}call memchr\n", "tools/c/folder: the archive of sessions "
                                "needs of other files: memchr\n")

    def test_a_function_of_sessions_that_the_header_lacks_is_found(self):
        self.fails_with_session(".text\n.globl tkc_more\ntkc_more: ret\n", "> tkc_more\ntools/c/"
                                "folder: the header (<) and the archive of sessions (>) have other "
                                "functions\n")
        self.session.write_text(text("tkcore_session.h").replace(".globl tkc_row_parse\n", ""),
                                encoding="utf-8")
        self.assertIn("< tkc_row_parse\n", self.make("dist/lib/libtkcore.a")[2])

    def fails(self, sentence, *words):
        status, said, errors = self.make("dist/lib/libtkcore.a", *words)
        self.assertEqual((2, ""), (status, said))
        lines = [it for it in errors.splitlines() if not it.startswith("make: ***")]
        self.assertEqual([sentence], lines)

    def test_a_missing_text_is_one_sentence(self):
        self.session.unlink()
        self.fails("assemble: cc builds for x86_64-linux-gnu, and release/ has no session.s for it")

    def test_another_processor_is_one_sentence(self):
        self.stand_in("cross-gcc", "echo riscv64-linux-gnu")
        self.fails("assemble: cross-gcc builds for riscv64-linux-gnu, and release/ has no tkcore.s "
                   "for it", "CC=cross-gcc")

    def test_a_missing_assembler_is_one_sentence(self):
        self.stand_in("lone-gcc", '[ "$1" != -dumpmachine ] || exec echo x86_64-linux-gnu\nexit 1')
        self.fails("assemble: lone-gcc finds no assembler: install binutils", "CC=lone-gcc")

    def test_a_missing_compiler_is_one_sentence(self):
        status, _, errors = self.run_tool("tools/assemble", "library", top=self.top)
        self.assertEqual((0, ""), (status, errors))
        os.environ["CC"] = "no-such-compiler"
        self.addCleanup(os.environ.pop, "CC")
        self.assertEqual((1, "", "assemble: there is no C compiler no-such-compiler\n"),
                         self.run_tool("tools/assemble", "library", top=self.top))

    def test_other_arguments_are_refused(self):
        usage = "usage: tools/assemble library|program|kernel [FOLDER]\n"
        self.assertEqual((0, usage, ""), self.run_tool("tools/assemble", "--help", top=self.top))
        for words in [], ["all"], ["library", "one", "two"]:
            with self.subTest(words):
                self.assertEqual((2, "", usage),
                                 self.run_tool("tools/assemble", *words, top=self.top))


if __name__ == "__main__":
    unittest.main()
