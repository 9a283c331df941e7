"""What tools/release writes, compares and says."""
import contextlib
import gzip
import importlib.util
import io
import os
import pathlib
import re
import shutil
import subprocess
import sys
import unittest
from importlib.machinery import SourceFileLoader
from unittest import mock

from tools import TOP, Case

sys.path.insert(0, str(TOP / "tools"))
LOADER = SourceFileLoader("release", str(TOP / "tools/release"))
release = importlib.util.module_from_spec(importlib.util.spec_from_loader("release", LOADER))
LOADER.exec_module(release)
manifest, making, sources = release.manifest, release.making, release.sources
SOURCES = dict(making.SOURCES)


class Release(Case):
    def setUp(self):
        super().setUp()
        self.folder = self.room / "release"
        self.folder.mkdir()
        self.enterContext(mock.patch.object(release, "RELEASE", self.folder))
        self.texts = {"library": {"x86_64/tkcore.s": b"one", "aarch64/tkcore.s": b"two",
                                  "x86_64/session.s": b"five", "aarch64/session.s": b"six"},
                      "program": {"x86_64/program.s.gz": b"three",
                                  "aarch64/program.s.gz": b"four"}}
        self.enterContext(mock.patch.dict(making.PARTS, {
            name: lambda _, out, name=name: self.make(name, out) for name in self.texts}))
        self.enterContext(mock.patch.object(release.rattle, "require_logic"))
        self.enterContext(mock.patch.dict(making.SOURCES, {
            "library": (["tk_counter"], ("c/text",)), "program": (["tk_clock"], ())}))

    def make(self, part, out):
        """Stands in for what proves and compiles a part."""
        lines = ["kit: one", "tk_c: logic=proved", sources.total(making.sources_of(part))]
        for name, content in self.texts[part].items():
            (out / name).parent.mkdir(parents=True, exist_ok=True)
            (out / name).write_bytes(content)
            lines.append(manifest.line_of(out / name, name))
        return lines

    def run_release(self, *words):
        """Returns the status, the output and the errors."""
        out, errors = io.StringIO(), io.StringIO()
        with mock.patch.object(sys, "argv", ["release", *words]), \
                contextlib.redirect_stdout(out), contextlib.redirect_stderr(errors):
            try:
                status = int(release.main())
            except SystemExit as ended:
                status = ended.code
        return status, out.getvalue(), errors.getvalue()

    def test_each_part_is_written_with_its_lines(self):
        self.assertEqual((0, "", ""), self.run_release("library"))
        self.assertEqual((0, "", ""), self.run_release("program"))
        parts = manifest.read(self.folder)
        self.assertEqual(["library", "program", "sources"], sorted(parts))
        self.assertEqual(["kit: one", "tk_c: logic=proved"], parts["program"][:2])
        self.assertEqual(["aarch64/program.s.gz", "aarch64/session.s", "aarch64/tkcore.s",
                          "x86_64/program.s.gz", "x86_64/session.s", "x86_64/tkcore.s"],
                         sorted(manifest.files(parts)))

    def test_the_same_release_is_verified(self):
        self.run_release("library", "program")
        said = "tools/release: release/ is what was made again, byte for byte\n"
        self.assertEqual((0, said, ""), self.run_release("--verify"))

    def test_what_differs_is_named(self):
        self.run_release("library", "program")
        (self.folder / "aarch64/tkcore.s").write_bytes(b"twO")
        self.assertEqual((1, "tools/release: differs: aarch64/tkcore.s\n", ""),
                         self.run_release("--verify"))
        self.texts["program"]["x86_64/program.s.gz"] = b"another"
        self.assertEqual(
            (1, "tools/release: differs: MANIFEST aarch64/tkcore.s x86_64/program.s.gz\n", ""),
            self.run_release("--verify"))

    def test_what_is_not_proved_ends_it(self):
        self.enterContext(mock.patch.dict(making.PARTS, {"library": self.not_proved}))
        self.assertEqual((1, "", "tools/release: tk_c isn't built\n"), self.run_release("library"))

    def not_proved(self, *_):
        raise making.Failed("tk_c isn't built")

    def test_a_built_library_is_compared_with_the_text(self):
        self.run_release("library")
        built = self.room / "dist"
        built.mkdir()
        why = f"tools/release: {built}/tkcore.s isn't there; tools/build_c makes it\n"
        self.assertEqual((1, "", why), self.run_release("--compare", str(built)))
        (built / "tkcore.s").write_bytes(b"two")
        why = why.replace("tkcore.s", "session.s")
        self.assertEqual((1, "", why), self.run_release("--compare", str(built), "aarch64"))
        (built / "session.s").write_bytes(b"six")
        self.assertEqual((0, "", ""), self.run_release("--compare", str(built), "aarch64"))
        self.check_differs(built, "tkcore.s")
        (built / "tkcore.s").write_bytes(b"one")
        self.check_differs(built, "session.s")

    def check_differs(self, built, name):
        why = (f"tools/release: {self.folder}/x86_64/{name} isn't the proved library's text: "
               "tools/release library makes it anew\n")
        self.assertEqual((1, "", why), self.run_release("--compare", str(built)))

    def test_the_texts_contain_functions_of_the_librarys_crates_only(self):
        for crate, file in making.ARCHIVES.items():
            made = [*release.rattle.crates()[crate].below, release.rattle.crates()[crate]]
            # (a session compares slices by core)
            crates = {"core"} if file == "session" else set()
            crates |= {name for it in made for name in (it.name, *it.uses)}
            for path in sorted(TOP.glob(f"release/*/{file}.s")):
                text = path.read_text(encoding="utf-8")
                head = r'(?:\t\.section "?\.(?:text|rodata)(?:\.unlikely)?\.|(?:function|public) "?)'
                named = set(re.findall(rf"^{head}([\w:]+)", text, re.M))
                self.assertGreater(len(named), 40)
                # (cst16 contains constants of 16 bytes)
                self.assertEqual([], sorted(it for it in named if not it.startswith(("tkc_", "cst"))
                                            and it.partition("::")[0] not in crates))

    def test_the_texts_of_the_library_are_small(self):
        for file, most in ("tkcore", 500_000), ("session", 1_500_000):
            sizes = [path.stat().st_size for path in TOP.glob(f"release/*/{file}.s")]
            self.assertEqual(2, len(sizes))
            self.assertLess(sum(sizes), most)

    def test_the_manifest_lists_the_texts_of_the_tree(self):
        parts = manifest.read(TOP / "release")
        lines = {line for part in parts.values() for line in part}
        for path in sorted(TOP.glob("release/*/*")):
            name = path.relative_to(TOP / "release").as_posix()
            self.assertIn(manifest.line_of(path, name), lines)
            self.assertIn(name, manifest.files(parts))

    def stand_in_for_the_program(self, source, machine="x86_64"):
        """Stands in for what proves and compiles the program, and writes its text in release/."""
        made, verdict = self.room / "tkcore.o", (0, "logic=proved functions=1\n")
        compiler = "gcc" if machine == "x86_64" else f"{machine}-linux-gnu-gcc"
        subprocess.run([compiler, "-O2", "-fPIC", "-x", "c", "-c", "-", "-o", made], input=source,
                       text=True, check=True)
        self.enterContext(mock.patch.object(release.rattle, "build_all", return_value=True))
        self.enterContext(mock.patch.object(release.rattle, "kit", return_value=self.room))
        built = self.enterContext(mock.patch.object(release.rattle.Crate, "run", autospec=True))
        built.side_effect = lambda crate, command, libraries, *words: (
            pathlib.Path(words[-1].removeprefix("-o=")).write_bytes(made.read_bytes()) and verdict)
        text = making.release_text(made).decode()
        self.write_program(gzip.compress(text.encode()), machine)
        return built, text

    def write_program(self, packed, machine="x86_64"):
        path = self.folder / making.program_of(machine)
        path.parent.mkdir(exist_ok=True)
        path.write_bytes(packed)
        return path

    def check_compared_program(self, machine, cpu, number, *words):
        """Compares a program with its text, and with one that has another number."""
        built, text = self.stand_in_for_the_program("int main(void) { return 71; }", machine)
        words = "--keep", str(self.room / "kept"), "--compare-program", *words
        self.assertEqual((0, "", ""), self.run_release(*words))
        crate, command, _, *given = built.call_args[0]
        self.assertEqual(("tkcore", "build"), (crate.name, command))
        kept = self.room / "kept" / "tkcore.kept"
        self.assertEqual([f"--target={machine}-unknown-linux-gnu", f"--cpu={cpu}",
                          f"--incremental={kept}"], given[1:-1])
        self.assertEqual(1, text.count(number))
        other = number.replace("7", "8")
        path = self.write_program(gzip.compress(text.replace(number, other).encode()), machine)
        status, said, errors = self.run_release(*words)
        why = (f"tools/release: {path} isn't the proved program's text: tools/release program makes "
               "it anew\n")
        self.assertEqual((1, "", why), (status, said, errors[:len(why)]))
        self.assertRegex(errors, r"\nsection \.text\S*: other bytes at 0x[0-9a-f]+\n\Z")

    def test_the_program_is_compared_with_its_text(self):
        self.check_compared_program("x86_64", "x86-64", "$0x47")

    def test_the_processor_of_the_program_may_be_named(self):
        self.check_compared_program("x86_64", "x86-64", "$0x47", "x86_64")

    @unittest.skipUnless(shutil.which("aarch64-linux-gnu-gcc"), "nothing compiles for AArch64")
    def test_the_program_for_aarch64_is_compared_with_its_text(self):
        self.check_compared_program("aarch64", "generic", "#0x47", "aarch64")

    def test_the_program_is_written_for_each_processor(self):
        built, text = self.stand_in_for_the_program("int main(void) { return 71; }")
        out = self.room / "out"
        with mock.patch.object(making, "begun", return_value=["kit: one"]):
            lines = making.program(self.room, out)
        names = ["x86_64/program.s.gz", "aarch64/program.s.gz"]
        self.assertEqual(["kit: one", *["tkcore: logic=proved functions=1"] * 2,
                          *(manifest.line_of(out / it, it) for it in names)], lines)
        self.assertEqual([text] * 2, [gzip.decompress((out / it).read_bytes()).decode()
                                      for it in names])
        self.assertEqual([["--target=x86_64-unknown-linux-gnu", "--cpu=x86-64"],
                          ["--target=aarch64-unknown-linux-gnu", "--cpu=generic"]],
                         [list(it[0][4:-1]) for it in built.call_args_list])

    def test_an_archive_is_proved_once_for_a_target_until_a_source_changes(self):
        crate = release.rattle.crates()["tk_c"]
        checked = self.room / "tk_c.a-target.checked"

        def run(_, command, *__):
            if command == "check":
                checked.mkdir(exist_ok=True)
                os.utime(checked)
            return 0, ""

        with mock.patch.object(release.rattle.Crate, "run", autospec=True, side_effect=run) as ran:
            for backend in "llvm", "rattle":
                crate.archive(self.room, backend, "a-target", self.room / "made.a")
            os.utime(checked, (0, 0))
            crate.archive(self.room, "llvm", "a-target", self.room / "made.a")
        given = [it[0] for it in ran.call_args_list]
        self.assertEqual(["check", "build", "build", "check", "build"], [it[1] for it in given])
        self.assertIn(f"--crate-checked={checked}", given[2])

    def test_many_differences_of_a_program_are_cut(self):
        _, text = self.stand_in_for_the_program("".join(f"int f{it}(void) {{ return 71; }}\n"
                                                        for it in range(50)))
        self.write_program(gzip.compress(re.sub(r"\bf(\d)", r"g\1", text).encode()))
        status, _, errors = self.run_release("--compare-program")
        self.assertEqual((1, 1 + release.SHOWN), (status, len(errors.splitlines())))

    def test_a_program_is_not_compared_with_a_damaged_text_or_without_a_proof(self):
        built, text = self.stand_in_for_the_program("int main(void) { return 0; }")
        built.side_effect = lambda *_: (1, "fn main: not proved")
        why = "tools/release: tkcore isn't built:\nfn main: not proved\n"
        self.assertEqual((1, "", why), self.run_release("--compare-program"))
        path = self.write_program(gzip.compress(text.encode())[:-9])
        status, said, errors = self.run_release("--compare-program")
        self.assertEqual((1, ""), (status, said))
        self.assertIn("tools/release: gzip failed:\n", errors)
        self.assertIn(str(path), errors)

    def test_other_arguments_are_refused(self):
        for words in ([], ["all"], ["--verify", "library"], ["--compare", "dist", "riscv64"],
                      ["--compare", "dist", "--verify"], ["--compare-program", "program"], ["--compare-program", "x86_64", "aarch64"],
                      ["--verify", "x86_64"], ["--compare", "dist", "x86_64", "aarch64"],
                      ["--compare-program", "--verify"], ["--compare-sources", "library"],
                      ["--compare-sources", "--verify"],
                      ["--compare-program", "--compare", "dist"]):
            with self.subTest(words):
                status, said, errors = self.run_release(*words)
                self.assertEqual((2, ""), (status, said))
                self.assertTrue(errors.endswith("release: error: other arguments\n"))

    def small_tree(self):
        """Makes the tools work on a copy of two crates and of a tool. Returns its top folder."""
        top = self.copy("crates.txt", "crates/tk_counter", "crates/tk_clock")
        self.enterContext(mock.patch.object(release.rattle, "ROOT", top))
        return top

    def test_the_sources_are_listed_with_their_tree(self):
        top = self.small_tree()
        self.run_release("library", "program")
        tree, *lines = manifest.read(self.folder)["sources"]
        names = ["tools/c/text", *(f"crates/{crate}/{path.relative_to(top / 'crates' / crate)}"
                                   for crate in ("tk_counter", "tk_clock")
                                   for part in ("src", "specs", "proofs")
                                   for path in (top / "crates" / crate / part).rglob("*.*"))]
        self.assertGreater(len(names), 100)
        said = subprocess.run(["sha256sum", *sorted(names)], cwd=top, check=True, text=True,
                              capture_output=True).stdout
        self.assertEqual(said.splitlines(), lines)
        self.assertEqual(f"tree: {self.git_tree(top, names)} of {len(names)} files", tree)
        given = [name for name in names if "tk_clock/" not in name]
        said = subprocess.run("xargs sha256sum | LC_ALL=C sort | sha256sum", cwd=top, check=True,
                              shell=True, input="\n".join(given), text=True,
                              capture_output=True).stdout
        self.assertEqual(f"sources: {said.split()[0]} of {len(given)} files",
                         manifest.read(self.folder)["library"][2])

    def test_the_sources_of_each_part(self):
        both = ["tk_c", "tk_session_c"]
        for part, made, has, lacks in [("library", both, "tools/c/text", "tools/c/module"),
                                       ("program", ["tkcore"], "tools/c/text", "tools/c/module"),
                                       ("module", both, "tools/c/module", "tools/c/text")]:
            with self.subTest(part), mock.patch.dict(making.SOURCES, SOURCES):
                names = making.sources_of(part)
                self.assertIn(has, names)
                self.assertNotIn(lacks, names)
                crates = {name.split("/")[1] for name in names if name.startswith("crates/")}
                below = {it.name for name in made for it in release.rattle.crates()[name].below}
                self.assertEqual({*made, *below}, crates)

    def git_tree(self, top, names):
        """Returns the id that git gives a tree of these files."""
        run = {"cwd": top, "check": True, "text": True, "capture_output": True}
        subprocess.run(["git", "init", "-q"], **run)
        subprocess.run(["git", "update-index", "--add", "--stdin"], input="\n".join(names), **run)
        return subprocess.run(["git", "write-tree"], **run).stdout.strip()

    def test_the_tree_has_the_order_and_the_modes_of_git(self):
        top = self.room / "top"
        names = ["a.b", "a/b", "a/b.c", "a0", "a/b0/c", "a-", "B", "z/y/x"]
        for name in names:
            (top / name).parent.mkdir(parents=True, exist_ok=True)
            (top / name).write_text(f"{name}\n", encoding="utf-8")
        (top / "a0").chmod(0o755)
        (top / "z/y/x").chmod(0o700)
        with mock.patch.object(release.rattle, "ROOT", top):
            self.assertEqual(self.git_tree(top, names), sources.tree(names))

    def different_sources(self):
        """Returns what differs, as both commands that compare the sources say."""
        status, said, errors = self.run_release("--compare-sources")
        if not status:
            self.assertEqual(("", ""), (said, errors))
            self.assertEqual(0, self.run_release("--verify")[0])
            return ""
        self.assertEqual((1, ""), (status, said))
        names = errors.removeprefix("tools/release: release/MANIFEST has other sources: ")
        status, said, _ = self.run_release("--verify")
        self.assertEqual((1, f"tools/release: differs: MANIFEST {names}"), (status, said))
        return names.removesuffix("\n")

    def test_other_sources_are_named(self):
        top = self.small_tree()
        self.run_release("library", "program")
        self.assertEqual("", self.different_sources())
        path = top / "crates/tk_clock/src/clock.rt"
        content = path.read_bytes()
        path.write_bytes(content + b"\n")
        self.assertEqual("crates/tk_clock/src/clock.rt [program]", self.different_sources())
        path.unlink()
        self.assertEqual("crates/tk_clock/src/clock.rt [program]", self.different_sources())
        path.write_bytes(content)
        more = top / "crates/tk_counter/proofs/deeper/Other.antt"
        more.parent.mkdir()
        more.touch()
        self.assertEqual("crates/tk_counter/proofs/deeper/Other.antt [library] [program]",
                         self.different_sources())
        more.unlink()
        (top / "tools/c/text").write_text("\n", encoding="utf-8")
        self.assertEqual("tools/c/text [library]", self.different_sources())

    def test_a_part_that_was_made_from_other_sources(self):
        top = self.small_tree()
        self.run_release("library", "program")
        path = top / "crates/tk_counter/src/counter.rt"
        path.write_bytes(path.read_bytes() + b"\n")
        self.run_release("library")
        self.assertEqual("[program]", self.different_sources())

    def test_a_file_that_can_be_executed_differs(self):
        top = self.small_tree()
        self.run_release("library", "program")
        (top / "tools/c/text").chmod(0o644)
        self.assertEqual("[sources]", self.different_sources())

    def test_the_sources_are_compared_without_a_toolchain(self):
        self.small_tree()
        self.run_release("library")
        with mock.patch.object(release.rattle, "require_logic", side_effect=SystemExit(2)):
            self.assertEqual((0, "", ""), self.run_release("--compare-sources"))
            self.assertEqual(2, self.run_release("--verify")[0])

    def test_a_manifest_without_sources(self):
        self.run_release("library")
        parts = manifest.read(self.folder)
        number = len(parts.pop("sources")) - 1
        manifest.write(self.folder, parts)
        self.assertEqual(number, len(self.different_sources().split()))

    def test_the_manifest_lists_the_sources_of_its_parts(self):
        parts = manifest.read(TOP / "release")
        tree, *lines = parts["sources"]
        self.assertEqual(f"of {len(lines)} files", tree.partition(" ")[2].partition(" ")[2])
        self.assertEqual(lines, sorted(lines, key=lambda line: line[66:]))
        for line in lines:
            self.assertRegex(line, r"\A[0-9a-f]{64}  (crates/tk\w+/(src|specs|proofs)|tools)/\S+\Z")


if __name__ == "__main__":
    unittest.main()
