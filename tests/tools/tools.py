"""Copies of this repository's tools over a stand-in for the toolchain."""
import os
import pathlib
import shutil
import subprocess
import tempfile
import unittest

TOP = pathlib.Path(__file__).resolve().parents[2]
LOGIC = "dac8208d650f15bf"


class Case(unittest.TestCase):
    """Tests of the tools with other programs first in PATH."""

    def setUp(self):
        self.room = pathlib.Path(self.enterContext(tempfile.TemporaryDirectory(prefix="tools-")))
        self.first = self.room / "first"
        self.first.mkdir()

    def stand_in(self, name, script):
        """Makes a program of this name, which is found before any other."""
        path = self.first / name
        path.write_text(f"#!/bin/sh\n{script}\n", encoding="utf-8")
        path.chmod(0o755)

    def stand_in_for_rt(self, version):
        """Makes an `rt` that prints this version, and is the toolchain's for all else."""
        real = shutil.which("rt")
        self.stand_in("rt", f'[ "$1" != version ] || exec echo "{version}"\nexec {real} "$@"')

    def copy(self, *names):
        """Copies files and folders of the repository, and returns the copy's top."""
        top = self.room / "copy"
        for name in ("tools", *names):
            if (TOP / name).is_dir():
                shutil.copytree(TOP / name, top / name,
                                ignore=shutil.ignore_patterns("out", "__pycache__"))
            else:
                (top / name).parent.mkdir(parents=True, exist_ok=True)
                shutil.copy2(TOP / name, top / name)
        return top

    def run_tool(self, *words, top=TOP):
        """Runs a tool with the stand-ins. Returns its status, its output and its errors."""
        found = {**os.environ, "PATH": f"{self.first}:{os.environ['PATH']}",
                 "PYTHONDONTWRITEBYTECODE": "1"}
        ran = subprocess.run([str(top / words[0]), *words[1:]], cwd=top, env=found, check=False,
                             capture_output=True, text=True, stdin=subprocess.DEVNULL)
        return ran.returncode, ran.stdout, ran.stderr
