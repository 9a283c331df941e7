"""What a program gets from tkrun: no open file, and no right to change the image. Without the library
it may not write to the clocks either."""
import unittest

from runs import CAN_FILTER, STILL, RunTest, call, needs_mounts, program

HIDES = "mount -t tmpfs tmpfs /dev/shm && exec {}"


class Descriptors(RunTest):
    def lines_of(self, command, *options):
        """The lines that a program prints of its files, and of its rights."""
        lines = self.run_on(*STILL, *options, "--", *command).splitlines()
        return ([line for line in lines if line.startswith("files")],
                {line for line in lines if not line.startswith("files")})

    def check(self, name, rights, *command):
        options = ["--record", self.folder / "r", "--log", self.folder / "l"]
        for chosen in [[], options]:
            with self.subTest(name, options=chosen):
                host = call([program(name)]).stdout.splitlines()
                files, found = self.lines_of(command or [program(name)], *chosen)
                self.assertEqual(files, [line for line in host if line.startswith("files")])
                self.assertEqual(found, rights)

    def test_a_program(self):
        self.check("descriptors", {"vdso r-xp", "page rw-s", "page r--s", "control rw-s"})

    @unittest.skipUnless(CAN_FILTER, "the kernel lets no filter ask tkrun")
    def test_a_static_program(self):
        self.check("static_descriptors", {"vdso r-xp", "page r--s"})

    @needs_mounts("hides the clocks")
    @unittest.skipUnless(CAN_FILTER, "the kernel lets no filter ask tkrun")
    def test_a_program_that_tkrun_gives_the_clocks(self):
        self.check("descriptors", {"vdso r-xp", "page rw-s", "page r--s", "control rw-s"},
                   "unshare", "-m", "sh", "-c", HIDES.format(program("descriptors")))
