"""Wrong arguments, and programs that can't be run: nothing is started."""
import os
import pathlib
import re

from runs import ROOT, TKRUN, RunTest, call, needs_mounts


class Arguments(RunTest):
    def refuse(self, *arguments, status=2):
        made = self.folder / "made"
        run = self.start(*arguments, "--", "touch", made)
        self.assertEqual((run.returncode, run.stdout), (status, ""))
        lines = run.stderr.splitlines()
        self.assertEqual(len(lines), 1, lines)
        self.assertFalse(made.exists())
        return lines[0]

    def test_each_option_refuses_wrong_values(self):
        wrong = {
            "counter": ["", "RAW", "tsc2"],
            "hz": ["", "0", "-1", "x", "1e9", "4294967296", "99999999999999999999"],
            "bits": ["7", "65", "x"],
            "maxsec": ["0", "601"],
            "error-ppm": ["x", "nan", "1000001", "-500001", ""],
            "speed": ["0", "-1", "x", "100001", "inf"],
            "start": ["", "x", "-", "+", "+x", "-x1", "+2w", "+2dd", "+2d x", "+2d x0", "+2dx2", "x2",
                      "+2d x2 x3", "+2d  x2", " x2", "5 x", "+1000000001", "-11575d", "+0x", "+-2",
                      "+nan", "+inf", "1.5.5", "1.", "1.0000000001", "2038-01-19",
                      "2038-01-19T03:14:00", "8277292036", "2038-13-19T03:14:00Z",
                      "99999999999999999999"],
            "ahead": ["x", "", "1e10"],
            "uptime": ["x", "", "-1", "946080000", "inf", "nan", "1e3", "1.5.5", "1.", "+1"],
            "every": ["0", "-1", "x"],
            "reads": ["-1", "x", "9223372036854775808"],
            "script": ["", "/nowhere/s", "/dev/zero"],
            "record": ["", "/nowhere/r", "/"],
            "log": ["", "/nowhere/l", "/"],
        }
        for option, values in wrong.items():
            for value in values:
                with self.subTest(option=option, value=value):
                    self.assertIn(f"--{option}", self.refuse(f"--{option}", value))

    def test_help_and_version(self):
        header = (ROOT / "include/tkcore.h").read_text()
        numbers = re.findall("^#define TKC_VERSION_[A-Z]+ ([0-9]+)$", header, re.MULTILINE)
        self.assertEqual(self.start("--version").stdout, f"tkrun {'.'.join(numbers)}\n")
        self.assertIn("--counter raw|tsc|sleeps", self.start("--help").stdout)

    def test_unknown_options_and_missing_values(self):
        self.assertIn("unrecognized option", self.refuse("--nothing"))
        self.assertEqual(self.start("--hz").returncode, 2)
        self.assertEqual(self.start().returncode, 2)
        self.assertEqual(self.start("--").returncode, 2)

    def test_options_that_contradict_each_other(self):
        script = self.file("s", "openhz,64,1000000000,1,0,5,0\n")
        self.refuse("--start", "1", "--ahead", "1")
        self.refuse("--start", "+1", "--ahead", "1")
        self.refuse("--ahead", "1", "--start", "-1")
        self.refuse("--script", script, "--start", "1")
        self.refuse("--script", script, "--start", "+1")
        self.refuse("--script", script, "--ahead", "1")
        self.refuse("--script", script, "--uptime", "1")
        self.assertIn("before 1970", self.refuse("--start", "5", "--uptime", "6"))
        self.assertIn("before 1970", self.refuse("--start", "5.1", "--uptime", "5.100000001"))
        self.refuse("--counter", "sleeps", "--speed", "2")
        self.refuse("--counter", "sleeps", "--error-ppm", "1")
        self.assertIn("--every needs", self.refuse("--every", "2"))
        self.assertIn("--reads needs", self.refuse("--reads", "10000000"))
        (self.folder / "link").symlink_to(script)
        same = self.folder / "same"
        for words in [["--record", same, "--log", same], ["--script", script, "--record", script],
                      ["--script", script, "--log", self.folder / "link"]]:
            self.assertIn("different files", self.refuse(*words))
        self.assertTrue(script.read_text())

    def test_a_script_of_another_counter(self):
        script = self.file("s", "openhz,64,1000000000,1,0,5,0\n")
        self.assertIn("another counter", self.refuse("--script", script, "--hz", "1000"))
        self.assertIn("another counter", self.refuse("--script", script, "--bits", "32"))
        run = self.start("--script", script, "--hz", "1000000000", "--", "true")
        self.assertEqual(run.returncode, 0)

    def test_faulty_scripts(self):
        # the clocks of the last one have accepted a command
        for text in ["", "x\n", "open,64,1,1\n", "openhz,64,1000000000,1,0,5,0\nstep,1\n",
                     "openhz,64,1000000000,1,0,5,0\nboth,1\n",
                     "openwords,32,16777216,24,1,0,16777216,0,0,5000000000,0,0,0,0,0,10000\n"]:
            self.assertIn("--script", self.refuse("--script", self.file("s", text)))
        self.assertEqual(self.refuse("--script", "/dev/null"), "tkrun: --script: no record")
        for name, reason in [("none", "No such file or directory"), ("", "Is a directory")]:
            self.assertRegex(self.refuse("--script", self.folder / name),
                             f"cannot read '.*': {reason}$")

    def test_a_counter_that_wraps_too_fast(self):
        self.assertIn("wraps", self.refuse("--bits", "8"))
        self.assertIn("wraps", self.refuse("--bits", "20"))
        self.assertEqual(self.start("--bits", "24", "--", "true").returncode, 0)

    def test_files_that_cannot_be_written(self):
        self.assertIn("--record", self.refuse("--record", self.folder / "none" / "r"))
        self.assertIn("--log", self.refuse("--log", self.folder / "none" / "l"))
        self.assertEqual(list(self.folder.iterdir()), [])

    def test_programs_that_cannot_be_run(self):
        for name, status in [("/nowhere/program", 127), ("no-such-program", 127),
                             ("/etc/passwd", 126), ("/", 126)]:
            record = self.folder / "r"
            run = self.start("--record", record, "--check", "--", name)
            self.assertEqual((run.returncode, len(run.stderr.splitlines())), (status, 1))
            self.assertFalse((self.folder / "r.rows").exists())

    def test_nothing_is_left(self):
        shown = self.start("--quiet", "--check", "--", "bash", "-c", "echo $TKRUN").stdout.strip()
        self.assertIn("/tkrun.", shown)
        self.assertFalse(pathlib.Path(shown).exists())

    @needs_mounts("makes another root")
    def test_no_file_of_others_is_removed_if_nothing_runs(self):
        # it ends before it has made its folder, whose files have these names
        self.share()
        for name in ("page", "control"):
            self.file(name, "")
        (self.folder / "proc").mkdir()
        command = ("mount --rbind /proc $1/proc && "
                   "exec chroot $1 /dist/bin/tkrun --script /none -- /true")
        run = call(["unshare", "-m", "sh", "-c", command, "sh", self.folder])
        self.assertEqual((run.returncode, len(run.stderr.splitlines())), (2, 1), run.stderr)
        self.assertTrue((self.folder / "page").exists() and (self.folder / "control").exists())

    @needs_mounts("hides /dev/shm")
    def test_nothing_is_left_if_nothing_runs(self):
        # without /dev/shm the folder is in TMPDIR, where nobody else writes
        command = "mount -t tmpfs -o ro tmpfs /dev/shm; exec \"$@\""
        for arguments in [["--check", "--", "/nowhere/program"],
                          ["--record", "/nowhere/r", "--", "true"]]:
            run = call(["unshare", "-m", "sh", "-c", command, "sh", TKRUN, *arguments],
                       env={**os.environ, "TMPDIR": str(self.folder)})
            self.assertIn(run.returncode, [2, 127])
            self.assertEqual(list(self.folder.iterdir()), [])
