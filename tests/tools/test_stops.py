"""A signal to .ci/run amid the start of a command, which must not outlive the run."""
import pathlib
import subprocess
import sys
import unittest

from tools import TOP, Case

DRIVER = """
import pathlib, signal, subprocess, sys
sys.path.insert(0, sys.argv[1])
from checks import run, stops
class Popen(subprocess.Popen):
    def __init__(self, *words, **options):
        super().__init__(*words, **options)
        pathlib.Path("number").write_text(str(self.pid))
        signal.raise_signal(int(sys.argv[3]))
subprocess.Popen = Popen
ran = run.Run(["a check"], pathlib.Path.cwd(), True, stops.Stops(), 60)
try:
    if sys.argv[2] == "check":
        ran.start("a check", "sleep", "3600")
    else:
        ran.install()
    pathlib.Path("went-on").touch()
finally:
    ran.close()
"""


class Stops(Case):
    def test_a_command_that_is_being_started_is_ended_too(self):
        (self.room / "tools").mkdir()
        self.write("tools/packages", "#!/bin/sh\nexec sleep 3600\n").chmod(0o755)
        for kind, number in [("check", 15), ("check", 2), ("check", 1), ("install", 15)]:
            with self.subTest(kind, number=number):
                ran = subprocess.run([sys.executable, "-B", "-c", DRIVER, str(TOP / "tools"), kind,
                                      str(number)], cwd=self.room, check=False,
                                     env={"TMPDIR": str(self.room), "PATH": "/usr/bin:/bin"})
                self.assertEqual(130, ran.returncode)
                started = (self.room / "number").read_text(encoding="utf-8")
                self.assertFalse(pathlib.Path("/proc", started, "exe").exists())
                self.assertFalse((self.room / "went-on").exists())
                self.assertEqual([], list(self.room.glob("ci-*")))

    def write(self, name, text):
        path = self.room / name
        path.write_text(text, encoding="utf-8")
        return path


if __name__ == "__main__":
    unittest.main()
