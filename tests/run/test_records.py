"""Records, --check, and the files of the clocks, also where there is no room for them."""
import itertools
import os
import re

from runs import STILL, TKRUN, RunTest, call, needs, needs_mounts, program

SET_TIME = 1  # TKC_CMD_SET_TIME of include/tkcore.h
ASK = 60  # ROW_ASK of run/clocks/rows.h


class Records(RunTest):
    def tkcore(self, change):
        """Makes a tkcore whose scripts a command has changed."""
        copy = self.share() / "bin"
        tkcore = copy / "tkcore"
        tkcore.rename(copy / "real")
        tkcore.write_text(f"#!/bin/sh\n{change} | {copy}/real \"$@\"\n")
        tkcore.chmod(0o755)
        return tkcore

    def check_by(self, change, *arguments):
        """Runs tkrun --check with such a tkcore."""
        return call([self.tkcore(change).parent / "tkrun", "--check", *map(str, arguments)])

    def test_a_tkcore_that_cannot_be_run(self):
        copy = self.share() / "bin"
        for end in ["exit 127", "kill -9 $$"]:
            (copy / "tkcore").write_text(f"#!/bin/sh\n{end}\n")
            run = call([copy / "tkrun", "--check", "--", "date"])
            self.assertEqual(run.returncode, 4, run.stderr)
            self.assertIn("--check: tkcore can't be run on ", run.stderr)

    def test_an_opening_that_differs(self):
        tkcore = self.tkcore("sed '/^openwords/s/,10000$/,9999/'")
        run = call([tkcore.parent / "tkrun", *STILL, "--check", "--", "/usr/bin/perl", "-e",
                    "for (1..200) { sleep 60; time }"],
                   env={**os.environ, "TKRUN_PART_BYTES": "4000"})
        self.assertEqual(run.returncode, 3, run.stderr)
        self.assertIn("--check: tkcore refuses ", run.stderr)

    def test_a_value_that_differs(self):
        # puts a digit in front of the value that each read of REALTIME states
        run = self.check_by("sed 's/,realtime,/&1/'", *STILL, "--start", 1000000000, "--",
                            "date")
        self.assertEqual(run.returncode, 3)
        self.assertIn("the program saw '1000000000.", run.stderr)
        self.assertIn("and tkcore gives 'at,realtime,1000000000.", run.stderr)

    def test_the_first_differences_are_shown(self):
        run = call([self.tkcore("sed 's/,realtime,/&1/'").parent / "tkrun", *STILL, "--start",
                    "1000000000", "--check", "--", program("calls")], input="gettime 0\n" * 8)
        self.assertEqual(run.returncode, 3)
        self.assertEqual(run.stderr.count(": the program saw '1000000000.000000000'"), 5)
        self.assertIn("tkrun: check: 8 lines differ from tkcore's\n", run.stderr)

    def test_a_difference_counts_though_a_later_part_cannot_be_run(self):
        been = self.folder / "been"
        tkcore = self.tkcore(f"[ -e {been} ] && exit 127; touch {been}; sed 's/,realtime,/&1/'")
        run = call([tkcore.parent / "tkrun", *STILL, "--check", "--", program("calls")],
                   input="gettime 0\n" * 200, env={**os.environ, "TKRUN_PART_BYTES": "2000"})
        self.assertEqual(run.returncode, 3, run.stderr)
        self.assertIn("--check: tkcore can't be run on ", run.stderr)

    def test_a_command_that_differs(self):
        run = self.check_by("sed 's/^set,.*/update,0/'", *STILL, "--", "date", "-s",
                            "@9999999999")
        self.assertEqual(run.returncode, 3)
        self.assertIn("the program saw 'no,invalid', and tkcore gives 'ok,1,", run.stderr)

    def test_a_shorter_report(self):
        run = self.check_by("sed '$d'", "--", "date")
        self.assertEqual(run.returncode, 3)
        self.assertIn("and tkcore gives 'nothing'", run.stderr)

    def test_the_record_states_the_values(self):
        record = self.folder / "r"
        self.run_on("--start", 1000000000, *STILL, "--record", record, "--", "bash", "-c",
                    "date -s @2000000000; date")
        self.assertIn(",realtime,2000000000000000000\n", record.read_text())
        run = call(["tkcore"], stdin=record.open())
        self.assertEqual((run.returncode, "differs" in run.stdout), (0, False))

    def full_disk(self, *arguments):
        """Runs a program that sets the clocks, with a record on a disk that gets full."""
        command = ("mount -t tmpfs -o size=100k tmpfs $1 && folder=$1 && shift && "
                   "exec $1 --start 1000000000 --record $folder/r \"${@:2}\"")
        return call(["unshare", "-m", "bash", "-c", command, "bash", self.folder, TKRUN,
                     *arguments, "--", program("killed"), "10"])

    @needs_mounts("makes a small disk")
    def test_a_full_disk(self):
        run = self.full_disk()
        self.assertEqual(run.returncode, 0, run.stderr)
        self.assertIn("back 0, errors 0", run.stdout)
        self.assertRegex(run.stderr, "the record ends before row [0-9]+: No space left on device|"
                                     "cannot write the record '.*': No space left on device")

    @needs_mounts("makes a small disk")
    def test_what_a_full_disk_lost_is_not_checked(self):
        run = self.full_disk("--check")
        self.assertIn("back 0, errors 0", run.stdout)
        self.assertRegex(run.stderr, "check: there is no record|aren't in the record")
        self.assertEqual(run.returncode, 4, run.stderr)

    def test_a_command_that_found_no_room_is_not_checked(self):
        # the limit holds the first 262,144 rows, or their script with short times, so the set is in
        # no row
        code = "/usr/bin/perl -e 'time for 1..263000'; date -u -s 2010-01-01; date -u +%F"
        run = call(["bash", "-c", 'ulimit -f 11000; exec "$@"', "bash", TKRUN, "--start",
                    "5", "--record", self.folder / "r", "--check", "--", "bash", "-c",
                    code])
        self.assertEqual((run.returncode, run.stdout.splitlines()[-1]), (4, "2010-01-01"),
                         run.stderr)
        for line in ["the record ends before row 262144: File too large",
                     "reads or commands aren't in the record",
                     "check: tkcore gives each of the first"]:
            self.assertIn(line, run.stderr)
        self.assertNotIn("\nset,", (self.folder / "r").read_text())

    @needs("/usr/bin/perl")
    def test_requests_at_the_end_of_a_chunk(self):
        # a request has seven rows, all in the same chunk of 65,536 rows. At the ends of seven chunks
        # there is room for each number of rows from none to six. The last row has the TAI offset.
        code = ("syscall(159, my $s = pack('L x4 q25', 128, (0) x 5, 37)); "
                "my $t = pack('L x4 q25', 0); syscall(159, $t) for 1..66000")
        run = self.start(*STILL, "--start", 1000000000, "--record", self.folder / "r", "--check",
                         "--", "/usr/bin/perl", "-e", code)
        self.assertEqual(run.returncode, 0, run.stderr)
        self.assertEqual((self.folder / "r").read_text().count("\nadjtimex,"), 66001)

    def spoil_row(self, at, value):
        """Runs a program that sets a word of the row of its second set to another value."""
        rows = self.folder / "r.rows"
        code = f"""import mmap, struct, time
for second in (2000000000, 1500000000, 1700000000):
    time.clock_settime(time.CLOCK_REALTIME, second)
    time.time()
with open({str(rows)!r}, "r+b") as file:
    row = struct.Struct("<4I2Qq")  # struct record_row of run/clocks/rows.h
    view = mmap.mmap(file.fileno(), 1000 * row.size)
    for at in range(0, len(view), row.size):
        if row.unpack_from(view, at)[6] == 1500000000 and view[at + 4] == {SET_TIME}:
            struct.pack_into("<I", view, at + {at}, {value})"""
        # with no updates, the row is one of the first 1,000
        run = self.start(*STILL, "--start", 1000000000, "--record", self.folder / "r", "--check",
                         "--", "/usr/bin/python3", "-c", code)
        self.assertEqual(run.returncode, 4, run.stderr)
        self.assertIn("the record ends before command 2, which couldn't be recorded", run.stderr)
        self.assertIn("check: tkcore gives each of the first", run.stderr)
        script = (self.folder / "r").read_text()
        self.assertIn(",2000000000,", script)
        self.assertNotRegex(script, ",1[57]00000000,")

    def test_a_command_whose_row_is_missing_ends_the_record(self):
        self.spoil_row(0, 0)  # it isn't ready

    def test_a_row_of_no_kind_ends_the_record(self):
        for kind in (9, 99, 2**32 - 1):
            self.spoil_row(4, kind)

    def test_readings_of_more_than_a_range(self):
        # 200 is half of the range before the opening or less, so it isn't between 100 and 30
        rows = self.folder / "r.rows"
        for readings in itertools.permutations((100, 200, 30)):
            code = f"""import ctypes, mmap
for _ in range(3):
    ctypes.CDLL(None).adjtimex(ctypes.create_string_buffer(208))
with open({str(rows)!r}, "r+b") as file:
    view = mmap.mmap(file.fileno(), 40000)
    asked = [at for at in range(0, len(view), 40) if view[at] and view[at + 4] == {ASK}]
    for at, reading in zip(asked, {readings}):
        view[at + 24] = reading"""
            run = self.start(*STILL, "--bits", 8, "--hz", 1000, "--record", self.folder / "r", "--",
                             "/usr/bin/python3", "-c", code)
            self.assertEqual(run.returncode, 0, run.stderr)
            asked = re.findall("^adjtimex,([0-9]+)", (self.folder / "r").read_text(), re.MULTILINE)
            self.assertEqual(asked, ["200", "30", "100"])

    def test_closed_standard_files(self):
        # what tkrun opens must not get their numbers; the program finds them closed
        for closed in ["<&-", ">&-", "2>&-", "<&- >&- 2>&-"]:
            with self.subTest(closed):
                code = f'exec "$@" {closed}'
                record = self.folder / "r"
                run = call(["bash", "-c", code, "bash", TKRUN, *STILL, "--start", "5", "--record",
                            record, "--check", "--", "bash", "-c",
                            f"date -s @7 >&- 2>&-; date -s @8 >&- 2>&-; ls -l /proc/$$/fd >{record}.fd"],
                           input="")
                self.assertEqual(run.returncode, 0, run.stderr)
                self.assertEqual(record.read_text().count("\nset,"), 2)
                self.assertNotIn("/dev/null", (self.folder / "r.fd").read_text())

    def test_a_full_device(self):
        run = self.start("--record", "/dev/full", "--", "date")
        self.assertEqual(run.returncode, 0)
        self.assertIn("cannot write the record '/dev/full': No space left on device", run.stderr)
        self.assertNotIn("recorded", run.stderr)

    def test_a_log_on_a_full_device(self):
        for options, command, lost in [([], ["date", "-s", "@5"], "1 line isn't"),
                                       (["--static"], [program("static_reads")], "8 lines aren't")]:
            run = self.start("--quiet", "--start", 1000000000, *options, "--log", "/dev/full", "--",
                             *command)
            self.assertEqual(run.stderr.splitlines(), [
                "tkrun: the log ends before line 1: No space left on device",
                f"tkrun: {lost} in the log"], run.stdout)
            self.assertEqual(run.returncode, 0)

    def test_a_log_at_the_limit_of_a_files_size(self):
        # the limit of 1,024 bytes would end a program that exceeds it
        log = self.folder / "log"
        run = self.start("--log", log, "--", "bash", "-c", "ulimit -f 1; for i in {1..30}; do "
                         "date -u -s @$((2000000000 + i)) +%s; done")
        self.assertEqual((run.returncode, run.stdout.splitlines()[-1]), (0, "2000000030"))
        whole = log.read_text().count("\n")
        self.assertGreater(whole, 15)
        self.assertRegex(run.stderr, f"the log ends before line {whole + 1}: "
                                     "(File too large|No space left on device)\n"
                                     f"tkrun: {30 - whole} lines aren't in the log\n")

    @needs("/usr/bin/python3")
    def test_a_log_leaves_a_signal_of_the_programs_own(self):
        # a limit of 0 bytes stops the log, and a file of the program, which gets a signal
        for own in [False, True]:
            code = f"""import os, signal, time
signal.signal(signal.SIGXFSZ, signal.SIG_DFL)
signal.pthread_sigmask(signal.SIG_BLOCK, [signal.SIGXFSZ])
try:
    file = os.open({str(self.folder / "own")!r}, os.O_CREAT | os.O_WRONLY)
    os.write(file, b"a" * {int(own)})
except OSError:
    pass
time.clock_settime(time.CLOCK_REALTIME, 2000000000)
print(signal.SIGXFSZ in signal.sigpending())"""
            run = self.start("--quiet", "--log", self.folder / "log", "--", "bash", "-c",
                             'ulimit -f 0; exec /usr/bin/python3 -c "$1"', "bash", code)
            self.assertEqual((run.returncode, run.stdout), (0, f"{own}\n"), run.stderr)
            self.assertIn("1 line isn't in the log", run.stderr)

    def record_of(self, *options):
        """Records a program that reads and sleeps. Returns the number of reads in the record, and what
        tkrun prints."""
        record = self.folder / "r"
        code = "time() for 1..10; select(undef, undef, undef, 1); time() for 1..10"
        run = self.start(*STILL, "--start", 5, *options, "--record", record, "--check", "--",
                         "perl", "-e", code)
        self.assertEqual(run.returncode, 0, run.stderr)
        self.assertIn("\nupdate,", record.read_text())
        return record.read_text().count("\nget,"), run.stderr

    @needs("perl")
    def test_a_record_of_so_many_reads(self):
        count, said = self.record_of()
        self.assertGreaterEqual(count, 20)
        self.assertNotIn("--reads", said)
        for most in [0, 7, 10, count - 1, count, count + 1]:
            with self.subTest(most):
                reads, said = self.record_of("--reads", most)
                self.assertEqual(reads, min(most, count))
                left = (f"tkrun: the record has the first {reads} reads, and not the "
                        f"{count - reads} after them: --reads changes that\n")
                self.assertEqual(left in said, most < count, said)

    def test_a_record_that_is_gone_is_not_checked(self):
        (self.folder / "gone").mkdir()
        run = self.start("--record", self.folder / "gone" / "r", "--check", "--", "rm", "-r",
                         self.folder / "gone")
        self.assertEqual(run.returncode, 4, run.stderr)
        self.assertIn("check: there is no record", run.stderr)

    @needs_mounts("hides /dev/shm")
    def test_no_shared_memory_folder(self):
        command = "mount -t tmpfs -o ro tmpfs /dev/shm && exec $1 --quiet --counter sleeps --start 5 -- date +%s"
        run = call(["unshare", "-m", "sh", "-c", command, "sh", TKRUN])
        self.assertEqual((run.returncode, run.stdout, run.stderr), (0, "5\n", ""))
        run = call(["unshare", "-m", "sh", "-c", "export TMPDIR=/nowhere; " + command,
                    "sh", TKRUN])
        self.assertEqual((run.returncode, run.stdout), (125, ""))
        self.assertRegex(run.stderr, "^tkrun: cannot make the shared clocks: .*\n$")
