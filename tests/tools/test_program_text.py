"""The program that `make` builds from its text, over release/host.c."""
import gzip
import os
import subprocess
import unittest

from tools import Case

# prints what release/host.c answers: each argument, and memory that is there and that isn't
PROGRAM = r"""
#include <errno.h>
#include <stdbool.h>
#include <stddef.h>
#include <stdint.h>
#include <stdio.h>
#include <string.h>
struct tried { bool ok; char *p; };
struct tried rattle_alloc(size_t, size_t), rattle_realloc(void *, size_t, size_t, size_t);
void rattle_dealloc(void *), rattle_set_errno(int);
int rattle_errno(void);
size_t rattle_arg_count(void);
ptrdiff_t rattle_arg(size_t, char *, size_t);
int main(void)
{
	char room[8];
	struct tried it = rattle_alloc(0, 8);
	for (size_t i = 1; i <= rattle_arg_count(); i++) {
		ptrdiff_t length = rattle_arg(i, room, sizeof(room));
		printf("%td %.*s\n", length, length < 0 ? 0 : (int)length, room);
	}
	printf("%d %d\n", it.ok, it.p != NULL);
	it = rattle_realloc(it.p, 0, 6, 1);
	strcpy(it.p, "whole");
	it = rattle_realloc(it.p, 6, 5000, 1);
	printf("%d %s\n", it.ok, it.p);
	rattle_dealloc(it.p);
	it = rattle_alloc(PTRDIFF_MAX, 16);
	printf("%d %d\n", it.ok, it.p != NULL);
	rattle_set_errno(ENOENT);
	printf("%d\n", rattle_errno() == ENOENT);
	return 3;
}
"""

PROGRAMS = "tkcore", "tkcore-static"
OLD = "assemble: cc doesn't link the program: a function of the C library may be missing"


class ProgramText(Case):
    def setUp(self):
        super().setUp()
        self.top = self.copy("release/host.c", "Makefile")
        text = subprocess.run(["gcc", "-S", "-O2", "-fPIC", "-x", "c", "-", "-o", "-"], check=True,
                              input=PROGRAM, capture_output=True, text=True).stdout
        folder = self.top / "release/x86_64"
        folder.mkdir(parents=True)
        (folder / "program.s.gz").write_bytes(gzip.compress(text.encode()))

    def test_the_program_gets_its_arguments_and_memory(self):
        ran = subprocess.run(["make", "-s", "dist/bin/tkcore"], cwd=self.top, capture_output=True,
                             text=True, check=False, env={**os.environ, "MAKEFLAGS": ""})
        made = "".join(f"assemble: made {self.top}/dist/bin/{name}\n" for name in PROGRAMS)
        self.assertEqual((0, made, ""), (ran.returncode, ran.stdout, ran.stderr))
        for name in PROGRAMS:
            with self.subTest(name):
                self.check_program(self.top / "dist/bin" / name)

    def check_program(self, program):
        ran = subprocess.run([program, "one", "", "12345678", "123456789"], capture_output=True,
                             text=True, check=False)
        self.assertEqual((3, "3 one\n0 \n8 12345678\n-2 \n-1 \n1 1\n1 whole\n0 1\n1\n", ""),
                         (ran.returncode, ran.stdout, ran.stderr))

    def test_the_static_program_needs_no_library(self):
        subprocess.run([self.top / "tools/assemble", "program"], check=True, capture_output=True)
        read = subprocess.run(["objdump", "-p", self.top / "dist/bin/tkcore-static"], check=True,
                              capture_output=True, text=True).stdout
        self.assertNotIn("NEEDED", read)
        self.assertNotIn("INTERP", read)

    def test_without_a_static_c_library_the_program_is_made(self):
        self.stand_in("lone-gcc", 'for it; do [ "$it" != -static-pie ] || exit 1; done\nexec gcc "$@"')
        said = (f"assemble: made {self.top}/dist/bin/tkcore\nassemble: left out: "
                f"{self.top}/dist/bin/tkcore-static: no static C library\n")
        ran = subprocess.run([self.top / "tools/assemble", "program"], check=False, text=True,
                             capture_output=True, env={**os.environ, "CC": str(self.first / "lone-gcc")})
        self.assertEqual((0, said, ""), (ran.returncode, ran.stdout, ran.stderr))

    def test_an_old_c_library_is_one_sentence(self):
        (self.top / "release/host.c").write_text("extern void too_new(void);\n"
                                                 "__attribute__((constructor)) static void f(void)\n"
                                                 "{ too_new(); }\n", encoding="utf-8")
        ran = subprocess.run([self.top / "tools/assemble", "program"], check=False, text=True,
                             capture_output=True)
        self.assertEqual((1, ""), (ran.returncode, ran.stdout))
        self.assertEqual(OLD, ran.stderr.splitlines()[-1])

    def test_host_c_has_no_warning(self):
        subprocess.run(["gcc", "-std=gnu11", "-O2", "-Wall", "-Wextra", "-Wpedantic", "-Wshadow",
                        "-Wconversion", "-Werror", "-fsyntax-only", self.top / "release/host.c"],
                       check=True)


if __name__ == "__main__":
    unittest.main()
