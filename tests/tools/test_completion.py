"""What bash and zsh offer for the arguments of tkcore and tkrun."""
import os
import pty
import re
import select
import shutil
import subprocess
import time
import unittest

from tools import TOP, Case

FOLDER = TOP / "tools/completion"
CLOCKS = ["boottime", "monotonic", "monotonic_coarse", "monotonic_raw", "realtime",
          "realtime_coarse", "tai"]
# (the shell prints the words between these marks)
IN_BASH = """source {file}
COMP_WORDS=({words}) COMP_CWORD={at}
_{program}
printf '%s\\n' "${{COMPREPLY[@]}}"
"""


def options():
    """Returns the options that run/tkrun/usage.c lists."""
    text = (TOP / "run/tkrun/usage.c").read_text(encoding="utf-8")
    usage = text.partition("USAGE[] =")[2].partition(";\n")[0]
    return sorted({*re.findall(r"--[a-z-]+", usage), "--help", "--version"} - {"--"})


class Completion(Case):
    def bash(self, *words):
        program = words[0]
        text = IN_BASH.format(file=FOLDER / f"{program}.bash", program=program, at=len(words) - 1,
                              words=" ".join(f"'{it}'" for it in words))
        ran = subprocess.run(["bash", "--norc", "-c", text], cwd=self.room, check=True,
                             capture_output=True, text=True)
        return sorted(it for it in ran.stdout.split("\n") if it)

    def test_bash_offers_the_forms_of_tkcore(self):
        self.assertEqual(["many", "race", "replay", "trace"], self.bash("tkcore", ""))
        self.assertEqual(["race", "replay"], self.bash("tkcore", "r"))
        self.assertEqual(["--keep"], self.bash("tkcore", "replay", "-"))
        self.assertEqual(CLOCKS, self.bash("tkcore", "trace", ""))
        self.assertEqual([], self.bash("tkcore", "many", ""))

    def test_bash_offers_files_where_tkcore_takes_them(self):
        (self.room / "a script.csv").touch()
        for words in (["trace", "tai"], ["trace", "tai", "one"], ["many", "2"],
                      ["race", "1"] + ["file"] * 9):
            self.assertEqual(["a script.csv"], self.bash("tkcore", *words, "a"))

    def test_bash_offers_each_option_of_tkrun(self):
        self.assertEqual(sorted(["--", *options()]), self.bash("tkrun", "-"))
        self.assertEqual(["--read-cost", "--readers", "--reads", "--record"],
                         self.bash("tkrun", "--quiet", "--r"))
        self.assertEqual(["raw", "sleeps", "tsc"], self.bash("tkrun", "--counter", ""))
        self.assertEqual([], self.bash("tkrun", "--hz", ""))
        (self.room / "record.csv").touch()
        self.assertEqual(["record.csv"], self.bash("tkrun", "--record", "rec"))

    def test_bash_offers_programs_after_two_dashes(self):
        self.assertIn("sleep", self.bash("tkrun", "--quiet", "--", "slee"))
        (self.room / "sleeper").touch()
        self.assertEqual(["sleeper"], self.bash("tkrun", "--", "cat", "slee"))

    def test_zsh_names_each_option_of_tkrun(self):
        text = (FOLDER / "_tkrun").read_text(encoding="utf-8")
        self.assertEqual(options(), sorted(re.findall(r"^    '\*?(--[a-z-]+)\[", text, flags=re.M)))

    @unittest.skipUnless(shutil.which("zsh"), "there is no zsh")
    def test_zsh_completes_the_only_match(self):
        for typed, whole in [("tkcore tr\t", "tkcore trace "), ("tkcore trace boo\t", "boottime "),
                             ("tkrun --counter sl\t", "sleeps "), ("tkrun --rec\t", "--record ")]:
            with self.subTest(typed):
                self.assertIn(whole, self.zsh(typed, whole))

    def zsh(self, typed, until):
        """Types into an interactive zsh, and returns what its terminal shows up to a text."""
        # (the typed line doesn't contain the prompt)
        start = f"fpath=({FOLDER} $fpath); autoload -U compinit; compinit -u -D; PS1='REA''DY'\n"
        pid, terminal = pty.fork()
        if not pid:
            os.chdir(self.room)
            os.environ.update(TERM="dumb", HOME=str(self.room))
            os.execlp("zsh", "zsh", "-f", "-i")
        try:
            os.write(terminal, start.encode())
            self.shown(terminal, "READY")
            os.write(terminal, typed.encode())
            return self.shown(terminal, until)
        finally:
            os.kill(pid, 9)
            os.waitpid(pid, 0)
            os.close(terminal)

    def shown(self, terminal, until):
        """Returns what a terminal shows up to a text, or in a minute."""
        text, ends = "", time.monotonic() + 60
        while until not in text and time.monotonic() < ends:
            if select.select([terminal], [], [], 1)[0]:
                text += os.read(terminal, 4096).decode(errors="replace").replace("\r", "")
        return text


if __name__ == "__main__":
    unittest.main()
