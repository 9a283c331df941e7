"""What tools/check_c and tools/check_run say if they can't test what `make` has built."""
import os
import shutil
import subprocess
import unittest

from tools import TOP, Case

X86_64 = "Advanced Micro Devices X86-64"


class CheckC(Case):
    def setUp(self):
        super().setUp()
        self.dist = self.room / "dist"
        (self.dist / "lib").mkdir(parents=True)

    def build(self, compiler="gcc"):
        """Stands in for a library: an archive of one empty object."""
        made = self.room / "empty.o"
        subprocess.run([compiler, "-x", "c", "-c", "-", "-o", made], input="", text=True, check=True)
        subprocess.run(["ar", "rcs", self.dist / "lib/libtkcore.a", made], check=True)

    def refused(self, why, tool="check_c", path=None):
        """The tool prints only this sentence."""
        words = ["--built", str(self.dist), "calls"] if tool == "check_c" else ["--built"]
        found = {**os.environ, "PATH": path or f"{self.first}:{os.environ['PATH']}"}
        ran = subprocess.run([shutil.which("bash"), TOP / "tools" / tool, *words], env=found,
                             check=False, capture_output=True, text=True)
        self.assertEqual((1, "", f"{tool}: {why}\n"), (ran.returncode, ran.stdout, ran.stderr))

    def test_a_library_for_another_processor(self):
        self.build()
        self.stand_in("gcc", '[ "$1" != -dumpmachine ] || exec echo aarch64-linux-gnu\n'
                             f'exec {shutil.which("gcc")} "$@"')
        self.refused(f"the library in {self.dist} is for another processor ({X86_64}) than gcc's, "
                     "aarch64")

    @unittest.skipUnless(shutil.which("aarch64-linux-gnu-gcc"), "nothing compiles for AArch64")
    def test_a_library_that_was_built_for_aarch64(self):
        self.build("aarch64-linux-gnu-gcc")
        self.refused(f"the library in {self.dist} is for another processor (AArch64) than gcc's, "
                     "x86_64")

    def test_without_python(self):
        for name in "bash", "dirname", "mktemp", "rm":
            (self.first / name).symlink_to(shutil.which(name))
        self.refused("python3 isn't installed", path=str(self.first))
        self.refused("python3 isn't installed", "check_run", path=str(self.first))

    def test_without_the_sanitizers(self):
        self.stand_in("gcc", 'for it; do [ "$it" != -fsanitize=address ] || exit 1; done\n'
                             f'exec {shutil.which("gcc")} "$@"')
        self.refused("gcc's sanitizers (libasan, libubsan) aren't installed")


if __name__ == "__main__":
    unittest.main()
