"""Runs side by side and inside of each other, signals, and other users."""
import os
import pathlib
import shutil
import signal
import subprocess

from runs import (IS_ROOT, OTHER, STILL, TKRUN, RunTest, call, needs_mounts, needs_root, program,
                  wait_until)


class Around(RunTest):
    def test_two_at_once(self):
        first = self.begin(TKRUN, "--quiet", *STILL, "--start", 1000000000, "--", "bash", "-c",
                           "read; date +%s", stdin=subprocess.PIPE)
        self.assertEqual(self.run_on(*STILL, "--start", 2000000000, "--", "date", "+%s"),
                         "2000000000\n")
        self.assertEqual(first.communicate("\n")[0], "1000000000\n")

    def test_one_inside_the_other(self):
        inside = f"{TKRUN} --quiet {' '.join(STILL)} --start 2000000000 -- date +%s"
        self.assertEqual(self.run_on(*STILL, "--start", 1000000000, "--", "bash", "-c",
                                     f"{inside}; date +%s"), "2000000000\n1000000000\n")

    def test_the_status_is_the_programs(self):
        self.assertEqual(self.start("--", "bash", "-c", "exit 7").returncode, 7)
        self.assertEqual(self.start("--", "bash", "-c", "kill -KILL $$").returncode, 137)

    def test_libraries_that_were_to_be_preloaded_still_are(self):
        others = ":".join(["libm.so.6"] * 2000)
        shown = call([TKRUN, "--quiet", "--", "bash", "-c", "echo $LD_PRELOAD"],
                     env={**os.environ, "LD_PRELOAD": others}).stdout
        self.assertRegex(shown, f"^/.*/libtkrun.so:{others}\n$")

    def test_a_summary_that_nobody_reads(self):
        # the program prints the folder, which is removed also if the summary can't be written
        run = self.begin(TKRUN, "--", "bash", "-c", "echo $TKRUN; read; exit 7",
                         stdin=subprocess.PIPE, stderr=subprocess.PIPE)
        folder = pathlib.Path(run.stdout.readline().strip())
        self.assertTrue(folder.exists())
        run.stderr.close()
        run.stdin.close()
        self.assertEqual(run.wait(100), 7)
        self.assertFalse(folder.exists())

    def test_a_signal_is_passed_on(self):
        run = self.begin(TKRUN, "--quiet", "--", "bash", "-c", "echo up; exec sleep 100")
        self.assertEqual(run.stdout.readline(), "up\n")
        run.terminate()
        self.assertEqual(run.wait(100), 143)

    def test_a_signal_after_the_program_ends_what_it_left(self):
        run = self.begin(TKRUN, "--quiet", "--", "bash", "-c", "sleep 100 & echo $$; exit 7")
        process = int(run.stdout.readline())
        wait_until(lambda: not pathlib.Path(f"/proc/{process}").exists())
        run.terminate()
        self.assertEqual(run.wait(100), 7)

    def start_check(self, *signals):
        """Starts tkrun --check with a tkcore that waits. Returns its process, and tkcore's folder
        in /proc. The test's folder contains the signals that tkcore blocks or ignores."""
        up, temporary = self.folder / "up", self.folder / "tmp"
        up.unlink(missing_ok=True)
        temporary.mkdir(exist_ok=True)
        run = self.begin("env", *signals, self.folder / "dist/bin/tkrun", "--quiet", "--check",
                         "--", "true", stderr=subprocess.PIPE,
                         env={**os.environ, "TMPDIR": str(temporary)})
        wait_until(lambda: up.exists() and up.read_text())
        return run, pathlib.Path("/proc", up.read_text().strip())

    def check_end(self, run, tkcore, number):
        """Sends a signal, which ends tkrun and tkcore."""
        run.send_signal(number)
        self.assertEqual(run.wait(100), 128 + number)
        self.assertEqual(run.communicate()[1],
                         f"tkrun: check: ended by a signal: {signal.strsignal(number)}\n")
        self.assertFalse(tkcore.exists())
        self.assertEqual(list((self.folder / "tmp").iterdir()), [])

    def test_a_signal_ends_the_check(self):
        tkcore, up = self.share() / "bin/tkcore", self.folder / "up"
        tkcore.write_text(f"#!/bin/sh\ngrep -E 'Sig(Blk|Ign)' /proc/self/status >{up}.signals\n"
                          f"echo $$ >{up}\nexec sleep 100\n")
        for number in [signal.SIGTERM, signal.SIGHUP, signal.SIGINT, signal.SIGQUIT]:
            with self.subTest(number):
                self.check_end(*self.start_check("--default-signal"), number)
                signals = (self.folder / "up.signals").read_text()
                self.assertEqual(signals, "SigBlk:\t0000000000000000\nSigIgn:\t0000000000000000\n")

    def test_an_ignored_signal_does_not_reach_the_check(self):
        # the tkcore lists its signals
        tkcore, up = self.share() / "bin/tkcore", self.folder / "up"
        tkcore.write_text(f"#!/bin/sh\ntrap 'echo HUP >>{up}.signals' HUP\n"
                          f"trap 'echo TERM >>{up}.signals; kill -9 $!; trap - TERM; kill $$' TERM\n"
                          f"sleep 100 & echo $$ >{up}\nwhile :; do wait; done\n")
        run, started = self.start_check("--default-signal", "--ignore-signal=HUP")
        run.send_signal(signal.SIGHUP)
        self.check_end(run, started, signal.SIGTERM)
        self.assertEqual((self.folder / "up.signals").read_text(), "TERM\n")

    @needs_mounts("empties /dev/shm")
    def test_a_signal_that_comes_before_the_program_leaves_no_file(self):
        # at most 9.9 ms later; the shell says nothing of the end of a job
        command = ("mount -t tmpfs tmpfs /dev/shm; exec 2>/dev/null; for i in {1..60}; do "
                   "$1 --quiet --record /dev/shm/r -- sleep 0.1 & "
                   "read -t 0.00$((RANDOM % 10))$((RANDOM % 10)) none </dev/zero; "
                   "kill -$((i % 2 ? 15 : 1)) $!; wait $!; done; ls /dev/shm")
        run = call(["unshare", "-m", "bash", "-c", command, "bash", TKRUN])
        self.assertIn(run.stdout, ["", "r\n"])

    def setuid(self, name, user):
        """Copies a program, and makes the copy setuid to a user."""
        copied = self.folder / name
        shutil.copy(shutil.which(name), copied)
        shutil.chown(copied, user)
        copied.chmod(0o4755)
        self.folder.chmod(0o755)
        return copied

    @needs_root("becomes another user")
    def test_a_setuid_program_gives_another_user_no_rights(self):
        tkrun = self.share() / "bin/tkrun"
        run = call([*OTHER, tkrun, "--quiet", "--", self.setuid("id", "root"), "-u"])
        self.assertEqual((run.returncode, run.stdout), (0, call([*OTHER, "id", "-u"]).stdout))

    @needs_root("becomes another user")
    def test_another_user_runs_and_checks(self):
        run = call([*OTHER, self.share() / "bin/tkrun", "--quiet", "--start", "5", "--record",
                    "/dev/null/r", "--", "date"])
        self.assertEqual((run.returncode, len(run.stderr.splitlines())), (2, 1))
        run = call([*OTHER, self.folder / "dist/bin/tkrun", *STILL, "--start", "5", "--check",
                    "--", "date", "+%s"], cwd="/")
        self.assertEqual((run.returncode, run.stdout), (0, "5\n"), run.stderr)

    @needs_root("has no limit of processes, and becomes another user")
    def test_no_process_may_be_started(self):
        command = f"ulimit -u 1; exec {self.share()}/bin/tkrun -- touch {self.folder}/made"
        run = call([*OTHER, "bash", "-c", command])
        self.assertEqual((run.returncode, len(run.stderr.splitlines())), (125, 1))
        self.assertIn("cannot run", run.stderr)

    def test_no_tkcore(self):
        shared = self.share()
        (shared / "bin/tkcore").unlink()
        run = call([shared / "bin/tkrun", "--check", "--", "/bin/date"], env={"PATH": "/:/x"})
        self.assertEqual((run.returncode, run.stdout), (125, ""))
        self.assertIn("tkcore is neither in", run.stderr)

    def test_too_little_memory(self):
        run = call(["bash", "-c", f"ulimit -v 8000; exec {TKRUN} --check -- date"])
        self.assertEqual((run.returncode, run.stdout, len(run.stderr.splitlines())), (125, "", 1))

    def test_too_few_files(self):
        # with the fewest files nothing is started, and with some more tkcore can't be run
        for most in range(4, 12):
            for options in ["", "--static"]:
                run = call(["bash", "-c", f"ulimit -n {most}; exec {TKRUN} --quiet {options} "
                                          "--check -- /bin/echo made"])
                with self.subTest(most=most, options=options):
                    self.assertIn((run.returncode, run.stdout, len(run.stderr.splitlines())),
                                  [(125, "", 1), (4, "made\n", 1), (4, "made\n", 2),
                                   (0, "made\n", 0)], run.stderr)

    @needs_root("becomes another user")
    def test_another_user_reads_and_does_not_set(self):
        shared = self.share()
        other = " ".join(OTHER)
        run = call([shared / "bin/tkrun", "--quiet", *STILL, "--start", "1000000000", "--", "bash",
                    "-c", f"{other} date +%s; {other} date -s @5; date +%s"])
        self.assertEqual(run.stdout.splitlines()[0], "1000000000")
        self.assertIn("Operation not permitted", run.stderr)
        self.assertEqual(run.stdout.splitlines()[-1], "1000000000")

    @needs_root("becomes another user")
    def test_a_program_of_another_user_begins_without_an_error(self):
        tkrun = self.share() / "bin/tkrun"
        cancelled = shutil.copy(program("cancelled"), self.folder)
        run = call([tkrun, "--quiet", "--", *OTHER, cancelled])
        self.assertNotIn("!errno", run.stdout)

    def test_no_program_has_the_capability_to_set_the_hosts_clock(self):
        status = self.run_on("--", "grep", "-E", "Cap|NoNewPrivs", "/proc/self/status")
        values = dict(line.split(":\t") for line in status.splitlines())
        # who can't bound the capabilities of a file lets no file get more
        if not IS_ROOT:
            self.assertEqual(values.pop("NoNewPrivs"), "1")
            values.pop("CapBnd")
        for name in [name for name in values if name.startswith("Cap")]:
            self.assertEqual(int(values[name], 16) >> 25 & 1, 0, name)
