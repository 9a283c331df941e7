"""tests/run/all.py: each test of a module is run once, and a test that fails fails the run."""
import contextlib
import importlib.util
import io
import re
import shutil
import subprocess
import sys
import threading
import time
import unittest
from unittest import mock

from tools import TOP, Case

RUN = TOP / "tests/run"

# notes that it was run, and passes only after the first time
ONCE = """import pathlib, unittest
class Once(unittest.TestCase):
    def test_once(self):
        notes = pathlib.Path({notes!r})
        before = notes.read_text() if notes.exists() else ""
        notes.write_text(before + "run\\n")
        self.assertEqual({wanted}, before)
"""
# each test notes its name
MANY = """import pathlib, unittest
class Base(unittest.TestCase):
    def note(self):
        with open({notes!r}, "a") as file:
            file.write(self.id() + "\\n")
    def test_inherited(self): self.note()
class Many(Base):
    def test_one(self): self.note()
    def test_two(self): self.note()
    def test_three(self): self.note()
"""
NAMES = sorted(["Base.test_inherited", *(f"Many.test_{it}" for it in ("inherited", "one", "two", "three"))])


class All(Case):
    def run_all(self, wanted, *words):
        """Runs a module whose test wants these notes of earlier runs, and one that passes. Returns
        the status, the notes and the output."""
        folder, notes = self.room / "run", self.room / "notes"
        shutil.rmtree(folder, ignore_errors=True)
        folder.mkdir()
        notes.unlink(missing_ok=True)
        self.copy_without_modules(folder)
        (folder / "test_once.py").write_text(ONCE.format(notes=str(notes), wanted=wanted))
        (folder / "test_other.py").write_text("import unittest\n"
                                              "class Other(unittest.TestCase):\n"
                                              "    @unittest.skip('no such program')\n"
                                              "    def test_other(self): pass\n")
        ran = subprocess.run([sys.executable, "-B", str(folder / "all.py"), *words], check=False,
                             capture_output=True, text=True, stdin=subprocess.DEVNULL)
        return ran.returncode, notes.read_text(encoding="utf-8"), ran.stdout

    def copy_without_modules(self, folder, waiting="{}", first="{}"):
        """Copies all.py, which then knows these modules only."""
        text = (RUN / "all.py").read_text(encoding="utf-8")
        for name, value in ("WAITING", waiting), ("FIRST", first), ("LONG", "[]"):
            text, count = re.subn(rf"^{name} = [\[{{].*?[\]}}]$", f"{name} = {value}", text,
                                  flags=re.M | re.S)
            self.assertEqual(1, count)
        (folder / "all.py").write_text(text, encoding="utf-8")

    def test_a_module_in_parts_runs_each_test_once(self):
        folder, notes = self.room / "run", self.room / "notes"
        folder.mkdir()
        (folder / "test_many.py").write_text(MANY.format(notes=str(notes)), encoding="utf-8")
        (folder / "test_other.py").write_text("", encoding="utf-8")
        for given in {}, {"first": '{"test_many": 2}'}, {"waiting": '{"test_many": 9}'}:
            with self.subTest(given):
                notes.write_text("", encoding="utf-8")
                self.copy_without_modules(folder, **given)
                ran = subprocess.run([sys.executable, "-B", folder / "all.py"], check=True,
                                     capture_output=True, text=True)
                noted = notes.read_text(encoding="utf-8").splitlines()
                self.assertEqual(NAMES, sorted(it.partition(".")[2] for it in noted))
                count = re.search(r"\d|$", str(given))[0] or "1"
                heads = [f"test_many {it + 1}/{count}:" for it in range(int(count))]
                self.assertEqual([*heads, "test_other 1/1:"],
                                 re.findall(r"^test_.*:$", ran.stdout, re.M))

    def test_a_part_that_fails_fails_the_run(self):
        folder, notes = self.room / "run", self.room / "notes"
        folder.mkdir()
        (folder / "test_many.py").write_text(MANY.format(notes=str(notes)).replace(
            "def test_two(self): self.note()", "def test_two(self): self.fail()"), encoding="utf-8")
        self.copy_without_modules(folder, first='{"test_many": 5}')
        ran = subprocess.run([sys.executable, "-B", folder / "all.py"], check=False,
                             capture_output=True, text=True)
        self.assertEqual(1, ran.returncode)
        self.assertEqual(1, ran.stdout.count("FAILED (failures=1)"))

    def parts_run(self, *words):
        """Returns the parts that a run starts, and how many of them run at once: of those that wait,
        and of others. Two processors stand for this machine's."""
        spec = importlib.util.spec_from_file_location("run_all", RUN / "all.py")
        every = importlib.util.module_from_spec(spec)
        spec.loader.exec_module(every)
        parts, changed, present, most = [], threading.Condition(), [0, 0], [0, 0]
        wanted = [2, 2 + every.MORE]

        def run_apart(module, part):
            kind = module not in every.WAITING
            with changed:
                parts.append((module, part))
                present[kind] += 1
                most[kind] = max(most[kind], present[kind])
                changed.notify_all()
                changed.wait_for(lambda: most[kind] >= wanted[kind], 60)
            time.sleep(0.01)
            with changed:
                present[kind] -= 1
            return 0, ""

        with mock.patch.object(every, "run_apart", run_apart), \
                mock.patch.object(every.os, "sched_getaffinity", return_value={0, 1}), \
                mock.patch.object(sys, "argv", ["all.py", *words]), \
                contextlib.redirect_stdout(io.StringIO()):
            self.assertTrue(every.main())
        return every, parts, most

    def test_each_module_is_run_in_its_parts(self):
        modules = {path.stem for path in RUN.glob("test_*.py")}
        for words in [], ["--all"]:
            every, parts, most = self.parts_run(*words)
            self.assertEqual(len(parts), len(set(parts)))
            counts = {**every.WAITING, **every.FIRST}
            self.assertEqual(set(), {*counts, *every.LONG} - modules)
            wanted = modules if words else modules - set(every.LONG)
            self.assertEqual(sorted((name, f"{it + 1}/{counts.get(name, 1)}") for name in wanted
                                    for it in range(counts.get(name, 1))), sorted(parts))
            self.assertEqual([2, 2 + every.MORE], most)

    def test_a_test_that_passes_at_the_second_try_fails(self):
        for words in [], ["test_once"], ["test_once.Once.test_once"]:
            with self.subTest(words):
                status, notes, _ = self.run_all("'run\\n'", *words)
                self.assertEqual((1, "run\n"), (status, notes))

    def test_a_test_that_passes_is_run_once(self):
        status, notes, said = self.run_all("''")
        self.assertEqual((0, "run\n"), (status, notes))
        self.assertIn("left out test_other.Other.test_other: no such program", said)


if __name__ == "__main__":
    unittest.main()
