"""Who made each read of a record: --readers, and what --check finds in its files."""
import os
import re
import shutil
import stat

from runs import STILL, TKRUN, RunTest, call, needs, program

# reads a clock, and then changes words of the row after a read, which says who made it
SPOIL = """import mmap, struct, time
time.time()
with open({rows!r}, "r+b") as file:
    view = mmap.mmap(file.fileno(), 4000)
    at = next(at for at in range(0, len(view), 40) if view[at] and view[at + 4] >= 100)
    view[at + 44:at + 48] = struct.pack("<I", {call})
    view[at + 56:at + 72] = {name!r}
"""


class Readers(RunTest):
    def readers(self, *arguments, status=0, env=None):
        """Runs tkrun --readers --check, and returns what it prints."""
        run = self.start("--record", self.folder / "r", "--readers", "--check", *arguments, env=env)
        self.assertEqual(run.returncode, status, run.stderr)
        return run

    def parts(self, name="r"):
        """Yields the scripts of a record."""
        path, number = self.folder / name, 1
        while path.exists():
            yield path
            number += 1
            path = self.folder / f"{name}.{number}"

    def lines(self, path):
        """Returns the readers of a script, with the clocks that they read. Each read has a line."""
        records = path.read_text().splitlines()
        lines = path.with_name(f"{path.name}.readers").read_text().splitlines()
        rows = [line.split(",") for line in lines]
        reads = [str(i) for i, record in enumerate(records, 1) if record.startswith("get,")]
        self.assertEqual([row[0] for row in rows], reads)
        self.assertEqual({len(row) for row in rows}, {6} if rows else set())
        for number, reading, *_ in rows:
            self.assertEqual(records[int(number) - 1].split(",")[1], reading)
        return [[*row[2:], records[int(row[0]) - 1].split(",")[2]] for row in rows]

    def reads_of(self, name, *words):
        """Runs asked.c, and compares the lines with what it says of its reads."""
        for counter in ([], STILL):
            run = self.readers(*counter, "--start", 5, "--", program(name), *words)
            found = [f"{process},{thread},{made},{clock}"
                     for process, thread, made, _, clock in self.lines(self.folder / "r")]
            self.assertEqual(sorted(found), sorted(run.stdout.splitlines()))
            self.assertEqual({row[3] for row in self.lines(self.folder / "r")}, {name})
            said = [line.split(",") for line in run.stdout.splitlines()]
            self.assertEqual((len({it[0] for it in said}), len({it[1] for it in said})), (2, 4))

    def test_reads_with_the_library(self):
        self.reads_of("asked", "library")

    def test_reads_without_the_library(self):
        self.reads_of("static_asked", "static")

    def test_reads_in_handlers_of_signals(self):
        # most of the signals come amid a read
        run = self.readers("--", program("asked"), "signals")
        made = [(row[2], row[4]) for row in self.lines(self.folder / "r")]
        self.assertEqual(set(made), {("clock_gettime", "monotonic"), ("gettimeofday", "realtime")})
        self.assertEqual(made.count(("gettimeofday", "realtime")), int(run.stdout))

    def test_sleeps_without_the_library(self):
        # at a signal, tkrun reads the clock for the rest of a sleep
        self.readers(*STILL, "--", program("static_interrupted"))
        made = {(row[2], row[3]) for row in self.lines(self.folder / "r")}
        self.assertEqual(made, {("clock_gettime", "static_interrup"), ("wait", "static_interrup")})

    def test_reads_of_a_step_in_another_process(self):
        run = self.readers(*STILL, "--start", 1000000000, "--", "/usr/bin/perl", "-e",
                           "print time, ' '; system 'date -s \\@5 >&2'; print time")
        self.assertEqual(run.stdout, "1000000000 5")
        rows = [row for row in self.lines(self.folder / "r") if row[3] == "perl"]
        self.assertEqual({row[2] for row in rows}, {"time"})
        self.assertEqual(len({row[0] for row in rows}), 1)

    def test_stamps_of_packets(self):
        self.readers("--start", 5, "--stamps", "--", program("stamps"), 1)
        made = [row[2] for row in self.lines(self.folder / "r")]
        self.assertIn("stamp", made)
        self.assertEqual(set(made), {"stamp", "clock_gettime", "wait"})

    def test_names_of_programs(self):
        # the kernel keeps 15 bytes of a name; bytes that a line can't have are written as numbers
        odd = self.folder / "a,\"\\\n\u00e9\x7f~ x"
        for name, shown in [(odd, r"a\x2c\x22\x5c\x0a\xc3\xa9\x7f~ x"),
                            (self.folder / "sixteen letters.", "sixteen letters")]:
            for source, word in [("asked", "library"), ("static_asked", "static")]:
                shutil.copy(program(source), name)
                self.readers("--", name, word)
                self.assertEqual({row[3] for row in self.lines(self.folder / "r")}, {shown})

    def test_a_shorter_name_after_a_longer_one(self):
        names = [self.folder / name for name in ("longer name", "short")]
        for name in names:
            shutil.copy(program("static_asked"), name)
        self.readers("--", "bash", "-c", '"$1" static; "$2" static', "bash", *names)
        lines = self.lines(self.folder / "r")
        self.assertEqual({row[3] for row in lines} - {"bash"}, {"longer name", "short"})

    def test_a_script_has_its_own_name(self):
        script = self.file("script", "#!/usr/bin/perl\ntime;\n")
        script.chmod(script.stat().st_mode | stat.S_IXUSR)
        self.readers("--", script)
        self.assertEqual({row[3] for row in self.lines(self.folder / "r")}, {"script"})

    def test_parts(self):
        run = self.readers(*STILL, "--", "/usr/bin/perl", "-MTime::HiRes=time", "-e",
                           "for (1..100) { sleep 60; time for 1..5 }",
                           env={"TKRUN_PART_BYTES": "4000"})
        parts = list(self.parts())
        self.assertGreater(len(parts), 4)
        self.assertIn(f"in {len(parts)} scripts", run.stderr)
        rows = [row for part in parts for row in self.lines(part)]
        self.assertEqual(sum(row[2] == "wait" for row in rows), 100)
        self.assertGreaterEqual(sum(row[2] == "gettimeofday" for row in rows), 500)

    def test_fewer_reads(self):
        script = "time for 1..99"
        self.readers(*STILL, "--every", 10, "--", "/usr/bin/perl", "-e", script)
        every = self.lines(self.folder / "r")
        self.readers(*STILL, "--reads", 7, "--", "/usr/bin/perl", "-e", script)
        first = self.lines(self.folder / "r")
        self.assertEqual((len(every), len(first)), (10, 7))
        self.assertEqual({row[2] for row in every + first}, {"time"})

    @needs("/usr/bin/python3")
    def test_steered_clocks(self):
        code = """import ctypes, time
for _ in range(3):
    time.time(), time.clock_gettime(6), time.sleep(1.5)
    ctypes.CDLL(None).adjtimex(ctypes.create_string_buffer(208))"""
        self.readers(*STILL, "--", "/usr/bin/python3", "-c", code)
        made = [(row[2], row[4]) for row in self.lines(self.folder / "r")]
        self.assertEqual(made.count(("clock_gettime", "monotonic_coarse")), 3)
        self.assertEqual((self.folder / "r").read_text().count("\nadjtimex,"), 3)

    def test_reads_at_the_ends_of_chunks(self):
        # a read has two rows in the same chunk of 65,536; each set makes their places odd or even
        code = "for (1..3) { time for 1..33000; syscall(227, 0, my $t = pack('q2', $_, 0)) }"
        self.readers(*STILL, "--", "/usr/bin/perl", "-e", code)
        self.assertGreaterEqual(len(self.lines(self.folder / "r")), 99000)

    def test_nodes(self):
        self.readers(*STILL, "--node", "far,start=7", "--", "/usr/bin/perl", "-e",
                     f"time; system '{TKRUN} node far -- /usr/bin/date -u +%s'")
        self.assertEqual({row[3] for row in self.lines(self.folder / "r")}, {"perl"})
        self.assertEqual([row[2:] for row in self.lines(self.folder / "r.far")],
                         [["clock_gettime", "date", "realtime"]])
        run = self.start("--node", "readers", "--", "true")
        self.assertEqual(run.returncode, 2)
        self.assertIn("--node: 'readers' isn't a name", run.stderr)

    @needs("/usr/bin/python3")
    def test_without_readers(self):
        # the rows of two reads follow each other
        rows = self.folder / "r.rows"
        code = f"""import mmap, time
for _ in range(9): time.time()
with open({str(rows)!r}, "r+b") as file:
    view = mmap.mmap(file.fileno(), 4000)
    ready = [at // 40 for at in range(0, len(view), 40) if view[at] and view[at + 4] >= 100]
print(ready == list(range(ready[0], ready[-1] + 1)), len(ready) >= 9)"""
        run = self.start(*STILL, "--record", self.folder / "r", "--", "/usr/bin/python3", "-c",
                         code)
        self.assertEqual((run.returncode, run.stdout), (0, "True True\n"))
        self.assertFalse((self.folder / "r.readers").exists())

    def test_a_reader_of_no_call(self):
        # a program can write to the rows
        rows = str(self.folder / "r.rows")
        for number, name, shown in [(7, b"sixteen letters!", "sixteen letters!"),
                                    (2**32 - 1, bytes(16), "")]:
            run = self.readers(*STILL, "--", "/usr/bin/python3", "-c",
                               SPOIL.format(rows=rows, call=number, name=name), status=3)
            lines = (self.folder / "r.readers").read_text().splitlines()
            wrong = [line for line in lines if line.split(",")[4] == "?"]
            self.assertEqual([line.split(",")[5] for line in wrong], [shown])
            place = wrong[0].split(",")[0]
            self.assertEqual(run.stderr.splitlines()[2:], [
                f"tkrun: {self.folder}/r.readers, record {place}: "
                f"'{wrong[0]}' isn't who read there",
                "tkrun: check: the readers don't fit the record"])

    def spoiled(self, change, status, name="r"):
        """Checks a record the readers of whose part a command has changed. Returns the lines on
        this."""
        copy = self.share() / "bin"
        (copy / "tkcore").rename(copy / "real")
        (copy / "tkcore").write_text(f"#!/bin/sh\n{change} {self.folder}/{name}.readers\n"
                                     f"exec {copy}/real \"$@\"\n")
        (copy / "tkcore").chmod(0o755)
        run = call([copy / "tkrun", "--quiet", *STILL, "--record", self.folder / "r", "--readers",
                    "--check", "--", program("calls")], input="gettime 0\n" * 200,
                   env={**os.environ, "TKRUN_PART_BYTES": "2000"})
        self.assertEqual(run.returncode, status, run.stderr)
        shutil.rmtree(copy.parent)
        return run.stderr.splitlines()

    def test_readers_that_do_not_fit(self):
        self.assertEqual(self.spoiled("true", 0), [])
        for change in ["s/^2,/3,/", "s/^2,/02,/", "2s/,/,1/", "2s/,[0-9]*,clock/,0,clock/",
                       "2s/clock_gettime/clock/", "2s/,calls/,/", "2s/$/,/", "3d", "2p", "$p", "$d",
                       "2s/.*/nobody/", "2s/^\\([0-9]*,[0-9]*,\\)[0-9]*/\\1-1/"]:
            with self.subTest(change):
                *shown, last = self.spoiled(f"sed -i '{change}'", 3)
                self.assertEqual(last, "tkrun: check: the readers don't fit the record")
                self.assertGreaterEqual(len(shown), 1)
                for line in shown:
                    self.assertRegex(line, f"^tkrun: {self.folder}/r\\.readers, record [0-9]+: "
                                           "'.*' isn't who read there$")

    def test_readers_of_a_later_part_that_do_not_fit(self):
        lines = self.spoiled("sed -i '$s/^/9/'", 3, "r.3")
        self.assertRegex(lines[0], f"^tkrun: {self.folder}/r\\.3\\.readers, record [0-9]+: '9")
        self.assertEqual(len(lines), 2)

    def test_the_first_wrong_readers_are_shown(self):
        lines = self.spoiled("rm -f", 3)
        self.assertEqual(lines[-1], "tkrun: check: the readers don't fit the record")
        self.assertEqual([re.sub(".*/", "", line) for line in lines[:-1]],
                         [f"r.readers, record {i}: '' isn't who read there" for i in range(2, 7)])
        lines = self.spoiled("sed -i '$p;$p'", 3)
        self.assertEqual(len(lines), 2)

    def test_readers_without_end(self):
        os.symlink("/dev/zero", self.folder / "r.readers")
        run = self.readers("--", program("calls"), status=3)
        self.assertRegex(run.stderr, f"\ntkrun: {self.folder}/r\\.readers, record [0-9]+: '' isn't "
                                     "who read there\ntkrun: check: the readers don't fit the "
                                     "record\n$")

    def test_readers_that_cannot_be_written(self):
        (self.folder / "s.readers").mkdir()
        run = self.start("--record", self.folder / "s", "--readers", "--", "true")
        self.assertEqual((run.returncode, run.stderr), (
            2, f"tkrun: --readers: cannot write '{self.folder}/s.readers': Is a directory\n"))

    def test_readers_need_a_record(self):
        for options in ([], ["--check"]):
            run = self.start("--readers", *options, "--", "true")
            self.assertEqual((run.returncode, run.stderr), (2, "tkrun: --readers needs --record\n"))

    def test_readers_on_a_full_device(self):
        os.symlink("/dev/full", self.folder / "r.readers")
        run = self.start("--record", self.folder / "r", "--readers", "--check", "--",
                         program("asked"))
        self.assertEqual(run.returncode, 4, run.stderr)
        self.assertIn(f"tkrun: cannot write the record '{self.folder}/r': No space left on device\n"
                      "tkrun: check: there is no record\n", run.stderr)
