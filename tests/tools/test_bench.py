"""bench/run over a library that `make` built, without the toolchain."""
import hashlib
import re
import subprocess
import unittest

from tools import TOP, Case


class Bench(Case):
    def setUp(self):
        super().setUp()
        self.stand_in("rt", "exit 127")
        self.stand_in("rustc", "exit 127")
        self.dist = self.room / "dist"

    def assemble(self):
        status, _, errors = self.run_tool("tools/assemble", "library", str(self.dist))
        self.assertEqual((0, ""), (status, errors))

    def test_a_built_library_is_timed_without_the_toolchain(self):
        self.assemble()
        status, said, errors = self.run_tool("bench/run", "--library", str(self.dist), "--rounds",
                                             "1", "c_apply", "c_get_12h_moved_32")
        self.assertEqual(0, status, errors)
        self.assertEqual("bench/run: building bench/c\nbench/run: round 1 of 1\n", errors)
        archive = self.dist / "lib/libtkcore.a"
        self.assertIn(f"{archive}, SHA-256 {hashlib.sha256(archive.read_bytes()).hexdigest()}\n",
                      said)
        rows = [line.replace(" ", "").split("|")[1:-1] for line in said.splitlines()
                if line.startswith("| c_")]
        self.assertEqual([["c_apply_1us", "C", "ns/command"],
                          ["c_get_12h_moved_32", "C", "ns/read"]],
                         [[name, peer, unit] for name, peer, _, _, _, unit, _ in rows])
        for _, _, ours, peer, ratio, *_ in rows:
            self.assertAlmostEqual(float(ours) / float(peer), float(ratio), delta=0.02)

    def test_pages_and_tkrun_are_timed(self):
        self.assemble()
        jobs = ["c_page_line", "c_page_line_4", "c_page_line_4_writer", "c_page_line_writer",
                "run_coarse", "run_static_tsc"]
        status, said, errors = self.run_tool("bench/run", "--library", str(self.dist), "--rounds",
                                             "1", "c_page_line", "run_coarse", "run_static_tsc")
        self.assertEqual(0, status, errors)
        rows = [line.replace(" ", "").split("|")[1:-1] for line in said.splitlines()
                if line.startswith(("| c_", "| run_"))]
        timed = sorted(name for name, peer, ours, *_ in rows if peer == "vDSO" and float(ours) > 1)
        self.assertEqual(sorted([*jobs, "c_page_line_ns"]), timed)

    def test_another_library_is_found_by_its_answers(self):
        # each of its calls returns 7
        self.assemble()
        stub = self.room / "stub.s"
        header = (TOP / "include/tkcore.h").read_text(encoding="utf-8")
        names = sorted(set(re.findall(r"\b(tkc_[a-z_]+)\(", header)))
        stub.write_text("".join(f".weak {it}\n{it}: mov $7, %eax\nret\n" for it in names)
                        + '.section .note.GNU-stack,"",@progbits\n', encoding="utf-8")
        for command in (["gcc", "-c", "stub.s"], ["ar", "rcs", "dist/lib/libtkcore.a", "stub.o"],
                        ["ar", "d", "dist/lib/libtkcore.a", "tk_c.o"]):
            subprocess.run(command, cwd=self.room, check=True, capture_output=True)
        status, _, errors = self.run_tool("bench/run", "--library", str(self.dist), "c_apply")
        self.assertEqual(1, status)
        self.assertRegex(errors, "ended with|prints other checks than bench/c/stdout")

    def test_what_is_no_library(self):
        self.dist.mkdir()
        why = f"bench/run: {self.dist} has no lib/libtkcore.a: make builds it in dist\n"
        self.assertEqual((1, "", why),
                         self.run_tool("bench/run", "--library", str(self.dist), "c_apply"))

    def test_jobs_that_need_the_toolchain(self):
        (self.dist / "lib").mkdir(parents=True)
        (self.dist / "lib/libtkcore.a").touch()
        for name in ("clock_get", "program_", "nothing"):
            self.assertEqual((1, "", "bench/run: no job over the library has such a name\n"),
                             self.run_tool("bench/run", "--library", str(self.dist), name))
        status, _, errors = self.run_tool("bench/run", "c_apply")
        self.assertEqual(2, status)
        self.assertIn("bench/run: needs logic ", errors)


if __name__ == "__main__":
    unittest.main()
