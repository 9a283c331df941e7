"""The words of a command line: what they ask for, and which are refused."""
import ctypes
import os
import pathlib
import struct
import subprocess
import tempfile

from program import OPENING, PROGRAM, SECONDS, SHORT, Case, Ending, run

USAGE = """\
tkcore 0.3.0 computes the clocks of Linux from readings of a counter.

  tkcore < SCRIPT                    writes the report of a script of commands
  tkcore replay [--keep N] < SCRIPT  folds its journal to N entries, 1 to 524288
  tkcore trace CLOCK SCRIPT STAMPS   writes CLOCK in ns at each stamp of a file
  tkcore many WORKERS FILE..         writes reports, made by 1 to 64 threads
  tkcore race STEP FILE..            runs scripts concurrently on shared clocks

CLOCK: realtime, monotonic, boottime, tai, monotonic_raw, realtime_coarse or
monotonic_coarse. A name that begins with - must come after --.
Status: 0 done, 1 a fault, 2 these arguments refused, 3 a read differs.
The manual page tkcore(1) describes scripts, reports and faults.
"""
REFUSED = Ending(2, "words refused", USAGE)

UPDATED = OPENING + "update,7\n"

# words that are refused, whatever the numbers and the clock
OTHER_WORDS = [
    "replay --keep=-1", "replay --keep=", "replay --keep", "replay --keep 1 --keep 1", "--keep 1",
    "replay 1", "replay replay", "replay --help", "--help", "-h", "help", "--version", "trace",
    "trace tai", "trace tai a", "trace tai a b c", "trace tai a -b", "trace --help",
    "trace tai a b --keep 1", "many", "many 1", "many a 1", "many 1 a -b", "race", "race 1",
    "race 1 --help", "help race", "replay trace",
]


class Words(Case):
    def test_replay_takes_its_words(self):
        script = UPDATED
        for words in [[], ["replay"], ["replay", "--keep", "007"],
                      ["replay", "--keep=0000000000000000000000524288"]]:
            with self.subTest(words=words):
                self.check_text("open,32,16777216,24\nok,1,0.000000007\n", *words, given=script)

    def test_a_journal_is_folded_to_as_many_entries_as_asked(self):
        # (a journal without --keep is full after 1,048,576 commands)
        script = OPENING + "update,0\n" * 1_048_577
        for keep, last in [(None, "no,full"), ("1", "ok,1048577,0.000000000"),
                           ("524288", "ok,1048577,0.000000000")]:
            words = ["replay", "--keep", keep] if keep else ["replay"]
            self.assertEqual(last, run(*words, given=script).text.splitlines()[-1])

    def test_names_may_have_spaces(self):
        self.check_text("8\n", "trace", "monotonic", "a b", "c d",
                        files={"a b": UPDATED, "c d": "1,8\n"})

    def test_other_words_are_refused(self):
        lines = [it.split() for it in OTHER_WORDS]
        lines += [["replay", "--keep", it] for it in ["0", "524289", "18446744073709551617", "+1",
                                                      "-1", " 1", "0x1", ""]]
        lines += [["many", it, "a"] for it in ["0", "65", "+1", "18446744073709551617"]]
        lines += [["race", it, "a"] for it in ["18446744073709551616", "-1", "x"]]
        lines += [["trace", it, "a", "a"] for it in ["TAI", "utc", ""]]
        for words in lines:
            with self.subTest(words=words):
                self.assertEqual(REFUSED, run(*words, given=OPENING, files={"a": OPENING}))

    def test_the_usage_follows_the_line_of_error(self):
        ran = subprocess.run([PROGRAM, "--help"], stdin=subprocess.DEVNULL, stdout=subprocess.PIPE,
                             stderr=subprocess.STDOUT, timeout=SECONDS, check=False)
        self.assertEqual((2, "tkcore: words refused\n" + USAGE),
                         (ran.returncode, ran.stdout.decode()))

    def test_the_usage_is_left_out_if_it_cannot_be_written(self):
        for output in "/dev/full", "/dev/null":
            with self.subTest(output), open(output, "wb") as writer:
                ran = subprocess.run([PROGRAM, "replay", "x"], stdin=subprocess.DEVNULL,
                                     stdout=writer, stderr=subprocess.PIPE, timeout=SECONDS,
                                     check=False)
                self.assertEqual((2, b"tkcore: words refused\n"), (ran.returncode, ran.stderr))

    def test_each_clock_and_number_of_the_usage_is_taken(self):
        names = USAGE.partition("CLOCK: ")[2].partition(". A name")[0]
        for clock in names.replace(" or\n", ", ").split(", "):
            words = ["trace", clock, "a", "none"]
            self.check_text("", *words, files={"a": OPENING, "none": ""})
        for words in ["replay --keep 1", "replay --keep 524288"]:
            self.assertEqual(0, run(*words.split(), given=OPENING).status)
        for workers in "1", "64":
            self.assertEqual(0, run("many", workers, "a", files={"a": OPENING}).status)

    def test_standard_input_is_left_to_others(self):
        for words, status in [("replay --keep 0", 2), ("trace tai a none", 0), ("many 1 a", 0),
                              ("race 1 a", 0), ("race 1 missing", 1)]:
            with self.subTest(words=words), tempfile.TemporaryDirectory() as room:
                for name, text in {"a": OPENING, "none": "", "given": OPENING}.items():
                    with open(f"{room}/{name}", "w", encoding="ascii") as file:
                        file.write(text)
                with open(f"{room}/given", "rb") as given:
                    ran = subprocess.run([PROGRAM, *words.split()], cwd=room, stdin=given,
                                         capture_output=True, timeout=SECONDS, check=False)
                    self.assertEqual((status, 0), (ran.returncode, os.lseek(given.fileno(), 0, 1)))


class Openings(Case):
    """Which files are opened, how often and in which order, as inotify(7) reports it."""

    IN_CLOSE_NOWRITE, IN_OPEN = 0x10, 0x20
    EVENT = struct.Struct("iIII")

    def names_of(self, events):
        """The names of the files that were opened. Events that are alike and adjacent are one."""
        while events:
            _, mask, _, length = self.EVENT.unpack_from(events)
            name, events = events[self.EVENT.size:][:length], events[self.EVENT.size + length:]
            if mask & self.IN_OPEN:
                yield name.rstrip(b"\0").decode()

    def opened_by(self, words):
        libc = ctypes.CDLL(None, use_errno=True)
        with tempfile.TemporaryDirectory() as room:
            for name in ["a", "b", "bad"]:
                pathlib.Path(room, name).write_text(SHORT if name == "bad" else UPDATED)
            watch = libc.inotify_init1(os.O_NONBLOCK)
            mask = self.IN_OPEN | self.IN_CLOSE_NOWRITE
            self.assertNotEqual(-1, libc.inotify_add_watch(watch, room.encode(), mask))
            subprocess.run([PROGRAM, *words.split()], cwd=room, input=b"", capture_output=True,
                           timeout=SECONDS, check=False)
            try:
                events = os.read(watch, 65_536)
            except BlockingIOError:
                events = b""
            os.close(watch)
        return " ".join(it for it in self.names_of(events) if it)

    def test_each_file_is_opened_once_and_in_order(self):
        for words, opened in [("", ""), ("replay a", ""), ("trace tai a b", "a b"),
                              ("trace tai missing b", ""), ("trace tai a missing", "a"),
                              ("many 2 b bad a b", "b bad a b"), ("many 2 b missing a", "b"),
                              ("race 1 b a b", "b a b"), ("race 1 a missing b", "a"),
                              ("race 1 a bad b", "a bad"), ("race x a", "")]:
            with self.subTest(words=words):
                self.assertEqual(opened, self.opened_by(words))
