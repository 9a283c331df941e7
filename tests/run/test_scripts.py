"""Scripts whose clocks are steered. The leap second is that of 2016; its times are by adjtimex(2)."""
import resource

from runs import STILL, TKRUN, RunTest, call, program

INS, STATUS, TAI = 0x10, 0x10, 0x80  # STA_INS, ADJ_STATUS and ADJ_TAI of adjtimex(2)
OPENING = "openhz,64,1000000000,1,0,1483228700,0"


def request(reading, modes, status=0, constant=0):
    """A record that sets these numbers."""
    return f"adjtimex,{reading},{modes},0,0,0,0,{status},{constant},0,0,0"


LEAP = [request(1000000000, STATUS, status=INS), request(2000000000, TAI, constant=36)]


def given(record):
    """What a record has except for reads and updates."""
    return [line for line in record.read_text().splitlines()[1:]
            if not line.startswith(("get,", "update,"))]


class Scripts(RunTest):
    def test_a_leap_second_by_requests(self):
        script = self.file("s", "\n".join([f"{OPENING},1000", *LEAP]))
        code = ("use Time::HiRes qw(clock_gettime sleep); sleep 98;"
                "for (1..4) { print time, ' ', clock_gettime(11) - clock_gettime(0), qq(\\n);"
                "sleep 1 }")
        record = self.folder / "r"
        output = self.run_on(*STILL, "--script", script, "--record", record, "--check", "--",
                             "/usr/bin/perl", "-e", code)
        self.assertEqual(output.splitlines(), ["1483228798 36", "1483228799 36", "1483228799 37",
                                               "1483228800 37"])
        self.assertEqual(given(record), LEAP)
        self.assertRegex(record.read_text(), "^open,64,[0-9,]+,1483228700,0,1000\n")

    def test_requests_on_a_counter_that_runs(self):
        script = self.file("s", "\n".join([f"{OPENING},250", *LEAP]))
        output = self.run_on("--speed", 10, "--script", script, "--deny-set", "--check", "--",
                             "/usr/bin/perl", "-MTime::HiRes=clock_gettime", "-e",
                             "sleep 4; print int(clock_gettime(11) - clock_gettime(0) + 0.5)")
        self.assertEqual(output, "36")

    def test_a_record_of_steered_clocks_is_a_script(self):
        for uptime in [0, 3600]:
            first, second = self.folder / f"first{uptime}", self.folder / f"second{uptime}"
            self.run_on(*STILL, "--start", 1000000000, "--uptime", uptime, "--record", first, "--",
                        program("orders"), 300)
            end = int(first.read_text().splitlines()[-1].split(",")[1]) // 10**9 + 1
            self.run_on(*STILL, "--script", first, "--record", second, "--check", "--",
                        "sleep", end)
            self.assertEqual(given(second), given(first))
            self.assertGreater(len(given(first)), 100)
            self.assertEqual(*(path.read_text().split("\n")[0] for path in (first, second)))

    def test_a_record_without_requests(self):
        script = self.file("s", f"{OPENING},100\n")
        record = self.folder / "r"
        self.run_on(*STILL, "--script", script, "--record", record, "--check", "--", "date")
        self.assertRegex(record.read_text(), "^open,64,[0-9,]+,1483228700,0,100\n")

    def refuse(self, *lines):
        """Returns why tkrun refuses a script of these records."""
        return self.refuse_text("\n".join(lines))

    def refuse_text(self, text):
        run = self.start("--script", self.file("s", text), "--", "true")
        self.assertEqual((run.returncode, run.stdout), (2, ""))
        self.assertRegex(run.stderr, "^tkrun: --script: .*\n$")
        return run.stderr.removeprefix("tkrun: --script: ").rstrip()

    def test_faults(self):
        first, second = "record 1: not a valid opening", "record 2: not a number in range"
        steered = f"{OPENING},250"
        for hz, fault in [(0, first), (1025, first), ("x", "record 1: not a number in range"),
                          ("250,1", "record 1: wrong number of fields")]:
            self.assertEqual(self.refuse(f"{OPENING},{hz}"), fault)
        self.assertEqual(self.refuse(OPENING, LEAP[0]),
                         "record 2: adjtimex, but HZ isn't in the first record")
        self.assertEqual(self.refuse(steered, LEAP[0] + ",0"), "record 2: wrong number of fields")
        self.assertEqual(self.refuse(steered, "adjtimex"), "record 2: wrong number of fields")
        for place in range(1, 12):
            for number in ["", "x", "18446744073709551616", "-"]:
                fields = LEAP[0].split(",")
                fields[place] = number
                self.assertEqual(self.refuse(steered, ",".join(fields)), second)

    def test_faults_of_records(self):
        opening, counter = "record 1: not a valid opening", "counter,0,64,16777216,24,0"
        fields, number, word = "wrong number of fields", "not a number in range", "unknown word"
        for text, fault in {
                "": "no record", "\n\r\n": "no record", "opened": opening, "update,0": opening,
                OPENING.replace("64", "7", 1): opening, f"{OPENING},,": f"record 1: {fields}",
                OPENING.replace("64", "+64", 1): f"record 1: {number}"}.items():
            with self.subTest(text):
                self.assertEqual(self.refuse_text(text), fault)
        for line, fault in {
                "sets,0": word, "Update,0": word, "update ,0": word, "get,0,utc": word, ",": word,
                "update,0\0": number, "update\0,0": word, "\xff": word, OPENING: word,
                "update": fields, "update,0,": fields, "step,0,1": fields, "get,0": fields,
                "get,0,tai,1,1": fields, "update,": number, "update,-1": number,
                "update, 1": number, "update,1 ": number, "step,0,--1,0": number,
                "step,0,1,-1": number, "get,0,tai,-1": number, "get,0,tai,": number,
                counter: "tkrun can't change the counter", f"{counter},0": fields,
                counter.replace(",0", ",x", 1): number,
                counter.replace("64", "7"): "a reading does not have 8 to 64 bits",
                counter.replace("64", "65"): "a reading does not have 8 to 64 bits",
                counter.replace("24", "33"): "the shift is above 32",
                counter.replace("16777216", "255"): "the mult is below 256",
                counter.replace("16777216", "3869339907"):
                    "the mult and 11 percent of it do not fit 32 bits"}.items():
            with self.subTest(line):
                # the fault of the first record that has one, and empty lines aren't counted
                self.assertEqual(self.refuse(OPENING, "", "get,0,tai", "", line, "wrong"),
                                 f"record 3: {fault}")

    def test_ends_of_lines(self):
        lines = [OPENING, "step,0,86400,0", "step,0,0,500000000"]
        for text in ["\n".join(lines), "\r\n".join([*lines, ""]), "\r".join(lines),
                     "\n\r\r" + "\n\n".join([*lines, ""])]:
            output = self.run_on(*STILL, "--script", self.file("s", text), "--", "date", "+%s.%N")
            self.assertEqual(output, "1483315100.500000000\n")

    def test_quotes_and_marks(self):
        fault = "not a plain line: it has a quote or a byte order mark"
        self.assertEqual(self.refuse("\ufeff" + OPENING), f"record 1: {fault}")
        self.assertEqual(self.refuse(OPENING.replace("64", '"64"')), f"record 1: {fault}")
        self.assertEqual(self.refuse(OPENING, "update,0", 'get,0,"tai"'), f"record 3: {fault}")
        self.assertEqual(self.refuse(OPENING, "\ufeffupdate,0"), "record 2: unknown word")

    def test_large_scripts(self):
        most = 16777216
        large = "larger than 16777216 bytes"
        self.assertEqual(self.refuse_text(OPENING.ljust(most + 1, "\n")), large)
        self.assertEqual(self.refuse_text("x" * (most + 1)), large)
        script = self.file("s", OPENING + "\n".ljust(most - len(OPENING), "\n"))
        self.assertEqual(self.run_on(*STILL, "--script", script, "--", "date", "+%s"),
                         "1483228700\n")
        # the list of the orders needs more memory than the rest
        script.write_text(OPENING.ljust(most - 1, "\n").replace("\n" * 9, "\nupdate,0"))
        limits = lambda: resource.setrlimit(resource.RLIMIT_AS, (48 << 20, 48 << 20))
        run = call([TKRUN, "--script", script, "--", "true"], preexec_fn=limits)
        self.assertEqual((run.returncode, run.stderr), (2, "tkrun: --script: out of memory\n"))

    def test_the_greatest_numbers(self):
        # each is the greatest or least of its kind, and the set is refused as it would be by tkcore
        lines = ["openhz,64,1000000000,1,18446744073709551615,1000000000,0",
                 "get,18446744073709551615,realtime,18446744073709551615",
                 "set,18446744073709551615,9223372036854775807,4294967295",
                 "set,18446744073709551615,-9223372036854775808,4294967295",
                 "tai,18446744073709551615,37"]
        run = self.run_on(*STILL, "--script", self.file("s", "\n".join(lines)), "--check", "--",
                          program("calls"))
        self.assertEqual(run, "")
        for number, line in enumerate(lines, 1):
            for field in line.split(","):
                if len(field) > 9 and field != "1000000000" and field.lstrip("-").isdigit():
                    wrong = line.replace(field, field[:-1] + str(int(field[-1]) + 1))
                    with self.subTest(wrong):
                        script = [*lines[:number - 1], wrong]
                        self.assertEqual(self.refuse(*script),
                                         f"record {number}: not a number in range")

    def test_a_discipline_that_has_steered(self):
        record = self.folder / "r"
        self.run_on(*STILL, "--start", 1000000000, "--uptime", 60, "--record", record, "--",
                    program("steers"))
        opening = record.read_text().splitlines()[0].split(",")
        self.assertEqual((opening[0], len(opening)), ("openwords", 34))
        for place in range(17, 34):
            fields = [*opening]
            fields[place] = str(int(fields[place]) + 1)
            # a second of a leap that isn't due, and errors above their limit, are no clocks'
            fault = ("not a valid opening" if place in (20, 23, 24)
                     else "tkrun can't continue running clocks")
            self.assertEqual(self.refuse(",".join(fields)), f"record 1: {fault}")
        opening[16] = str(int(opening[16]) + 2**32)  # HZ has 32 bits
        self.assertEqual(self.refuse(",".join(opening)), "record 1: not a number in range")

    def test_refused_commands(self):
        # --check compares the reasons: awake, asleep for two, invalid, and awake again
        commands = ["resume,0,5,0", "suspend,0", "suspend,0", "set,0,1600000000,5", "resume,0,-1,0",
                    "resume,0,3600,7", "resume,0,1,0"]
        script = self.file("s", "\n".join(["openhz,64,1000000000,1,0,1000000000,0", *commands]))
        record = self.folder / "r"
        run = self.start(*STILL, "--script", script, "--record", record, "--check", "--",
                         program("calls"))
        self.assertEqual(run.returncode, 0, run.stderr)
        self.assertRegex(run.stderr, "commands: 2 accepted, 5 refused;")
        self.assertEqual(given(record), commands)

    def test_commands_at_one_reading(self):
        commands = ["step,1000000000,100,7", "tai,1000000000,37", "step,1000000000,-30,0",
                    "set,2000000000,1600000000,5", "tai,2000000000,38"]
        script = self.file("s", "\n".join(["openhz,64,1000000000,1,0,1000000000,0", *commands]))
        record = self.folder / "r"
        code = ("use Time::HiRes qw(clock_gettime sleep); for (1..3) { sleep 1;"
                "printf qq(%.3f %.0f\n), clock_gettime(0), clock_gettime(11) - clock_gettime(0) }")
        output = self.run_on(*STILL, "--script", script, "--record", record, "--check", "--",
                             "/usr/bin/perl", "-e", code)
        self.assertEqual(output, "1000000071.000 37\n1600000000.000 38\n1600000001.000 38\n")
        self.assertEqual(given(record), commands)
