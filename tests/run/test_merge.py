"""`tkrun merge`: the records of all nodes in one order, against the scripts, the file that places
them on the common counter, and arithmetic."""
import os
import re
from fractions import Fraction

from runs import STILL, TKRUN, RunTest, call, program

SECOND = 10**9
CLOCKS = program("nodes_clocks")
LINE = re.compile(r"(\d+\.\d{9}),([a-z]*),([+-]\d+\.\d{9})?,([a-z]+),([a-z-]+,\d+.*)")


def nanos(text):
    """The ns of a number of seconds with nine digits after the point."""
    whole, part = text.lstrip("+-").split(".")
    return (int(whole) * SECOND + int(part)) * (-1 if text[0] == "-" else 1)


class Merge(RunTest):
    def setUp(self):
        super().setUp()
        self.record = self.folder / "r"

    def script(self, text):
        """A script on the program's clocks. It knows tkrun as $T and nodes_clocks as $P."""
        return ["--", "sh", "-c", f"cd {self.folder}; T={TKRUN} P={CLOCKS}; {text}"]

    def record_run(self, *arguments, env=None):
        run = self.start("--quiet", "--record", self.record, "--check", *arguments, env=env)
        self.assertEqual((run.returncode, run.stderr), (0, ""))

    def merge(self):
        """The fields of each line: the true time and REALTIME minus it in ns, the node, the
        result, and the record."""
        run = call([TKRUN, "merge", self.record])
        self.assertEqual((run.returncode, run.stderr), (0, ""))
        lines = []
        for text in run.stdout.splitlines():
            match = LINE.fullmatch(text)
            self.assertTrue(match, text)
            truth, node, ahead, result, record = match.groups()
            lines.append((nanos(truth), node, ahead and nanos(ahead), result, record))
        return lines

    def records(self, node):
        """The records of a node's scripts, without the openings and the updates."""
        path, part, records = f"{self.record}{'.' if node else ''}{node}", 1, []
        while os.path.exists(name := path if part == 1 else f"{path}.{part}"):
            with open(name, encoding="ascii") as file:
                records += file.read().splitlines()[1:]
            part += 1
        return [record for record in records if not record.startswith("update,")]

    def places(self):
        """For each name of the file, its lines: the common counter, the reading, the factor."""
        places = {}
        for line in (self.folder / "r.nodes").read_text().splitlines():
            name, *numbers = line.split(",")
            common, reading, scale, shift = map(int, numbers)
            places.setdefault(name, []).append((common, reading, Fraction(scale, 2**shift)))
        return places

    def compare(self, start, bits=64):
        """Merges a record whose program starts at `start` ns, and compares it with the scripts."""
        lines, places = self.merge(), self.places()
        [(_, _, truth)] = places.pop("true")
        self.assertEqual([line[0] for line in lines], sorted(line[0] for line in lines))
        for node, paces in places.items():
            own = [line for line in lines if line[1] == node]
            changes = [line for line in own if line[4].startswith("error-ppm,")]
            self.compare_errors(changes, paces, truth * self.hertz(node) / SECOND)
            self.assertEqual([line[0] for line in changes],
                             [pace[0] * truth // 1 for pace in paces])
            own = [line for line in own if line not in changes]
            self.assertEqual(sorted(line[4] for line in own), sorted(self.records(node)))
            for at, _, ahead, result, record in own:
                word, reading, *values = record.split(",")
                if (word, result) == ("get", "ok") and values[0] == "realtime":
                    self.assertEqual(ahead, int(values[1]) - start - at, record)
                common, first, factor = [pace for pace in paces if pace[0] * truth // 1 <= at][-1]
                near = first + int((at / truth - common) * factor)
                near += (int(reading) - near + 2**bits // 2) % 2**bits - 2**bits // 2
                # the first value of the common counter at which the node has this reading
                common += -(-(near - first) // factor)
                self.assertEqual(common * truth // 1, at, record)
        return lines

    def hertz(self, node):
        """The rate with which a node's counter is described."""
        with open(f"{self.record}{'.' if node else ''}{node}", encoding="ascii") as file:
            _, mult, shift = map(int, file.readline().split(",")[1:4])
        return Fraction(SECOND * 2**shift, mult)

    def compare_errors(self, lines, paces, rate):
        """Compares the lines of a node's errors with its lines of the file. Without an error, its
        counter has this rate."""
        self.assertEqual(len(lines), len(paces))
        for (_, _, _, result, record), (_, reading, factor) in zip(lines, paces):
            self.assertEqual(result, "ok")
            number, ppm = record.split(",")[1:]
            self.assertEqual(int(number), reading)
            self.assertAlmostEqual(float(ppm), float((factor / rate - 1) * 10**6), 5)

    def test_what_happened_on_three_nodes(self):
        plan = self.file("plan", "at 2 fast step +1.5\nat 3 fast freq 1000000\n"
                                 "at 4 slow suspend 2\nat 5 slow step 1\n")
        text = f"$T node fast -- $P {8 * SECOND} & $T node slow -- $P & sleep 7; $P; wait"
        run = self.start("--quiet", *STILL, "--start", 2000, "--node", "fast,start=1000",
                         "--node", "slow,error-ppm=-500000,ahead=-5.5", "--plan", plan,
                         "--record", self.record, "--check", *self.script(text))
        self.assertEqual((run.returncode, run.stderr), (
            0, "tkrun: slow: an event at 5.000000000 was refused: TKC_ASLEEP\n"))
        half = SECOND // 2
        expected = [
            (0, "", 0, "ok", "error-ppm,0,+0.000000"),
            (0, "fast", -1000 * SECOND, "ok", "error-ppm,0,+0.000000"),
            (0, "fast", -1000 * SECOND, "ok", f"get,0,realtime,{1000 * SECOND}"),
            (0, "slow", -11 * half, "ok", "error-ppm,0,-500000.000000"),
            (0, "slow", -11 * half, "ok", f"get,0,realtime,{2000 * SECOND - 11 * half}"),
            (4 * half, "fast", -1997 * half, "ok", f"step,{4 * half},1,{half}"),
            (6 * half, "fast", -1997 * half, "ok", f"error-ppm,{6 * half},+1000000.000000"),
            (8 * half, "slow", -15 * half, "ok", f"suspend,{4 * half}"),
            (10 * half, "slow", -17 * half, "asleep", f"step,{5 * half},1,0"),
            # 8 s and 1 ns of the node, at twice the rate since the third second
            (11 * half + 1, "fast", -1992 * half + 1, "ok",
             f"get,{16 * half + 2},realtime,{2019 * half + 2}"),
            (12 * half, "slow", -15 * half, "ok", f"resume,{6 * half},2,0"),
            (14 * half + 1, "", 0, "ok", f"get,{14 * half + 1},realtime,{4014 * half + 1}")]
        self.assertEqual([line for line in self.compare(2000 * SECOND)
                          if ",monotonic," not in line[4]], expected)

    def test_steered_clocks_in_parts(self):
        steers = program("steers")
        logs = []
        for size in [100000, 700]:
            self.record_run(*STILL, "--start", 1000000000, "--node", "a", "--node", "b,uptime=7",
                            *self.script(f"$T node a -- {steers} & $T node b -- {steers}; wait"),
                            env={"TKRUN_PART_BYTES": str(size)})
            self.assertEqual((self.folder / "r.b.3").exists(), size == 700)
            logs.append(self.compare(1000000000 * SECOND))
        self.assertEqual(logs[0], logs[1])
        self.assertTrue([line for line in logs[0] if line[4].startswith("adjtimex,")])
        self.assertTrue([line for line in logs[0] if line[3] == "invalid"])
        # a part with another status of the discipline
        part = self.folder / "r.b.2"
        first, rest = part.read_text().split("\n", 1)
        fields = first.split(",")
        fields[17] = str(int(fields[17]) ^ 1)
        part.write_text("\n".join([",".join(fields), rest]))
        run = call([TKRUN, "merge", self.record])
        self.assertEqual((run.returncode, run.stderr), (2, (
            f"tkrun: merge: '{part}': record 1: it doesn't continue the part before\n")))

    def test_readings_that_wrap(self):
        # a narrow counter of another rate, which wraps every 17 s and begins at its end
        script = self.file("s", "openhz,24,1000000,1,16777215,5,0\n")
        self.record_run(*STILL, "--start", 5, "--node", f"a,script={script},error-ppm=-250000",
                        *self.script(f"$T node a -- $P {100 * SECOND} {3 * SECOND} {SECOND}"))
        ends = [at for at, node, _, _, record in self.compare(5 * SECOND, 24)
                if node == "a" and ",realtime," in record]
        # a sleep ends at the first cycle of 1 us past its end
        [(_, _, factor)] = self.places()["a"]
        self.assertAlmostEqual(float(factor), 0.00075, 15)
        self.assertEqual(ends, [-(-cycle // factor)
                                for cycle in [0, 100000001, 103000002, 104000003]])

    def test_a_coarse_clock(self):
        # it has its time since the sleep's end
        show = "python3 -c 'import time; time.clock_gettime_ns(5); time.clock_gettime_ns(0)'"
        self.record_run(*STILL, "--start", 5, "--node", "a",
                        *self.script(f"sleep 1; $T node a -- {show}"))
        now = SECOND + 1
        self.assertIn((now, "a", 0, "ok", f"get,{now},realtime_coarse,{5 * SECOND + now}"),
                      self.compare(5 * SECOND))

    def test_running_counters(self):
        for counter in ["raw", "tsc"]:
            with self.subTest(counter=counter):
                self.record_run("--counter", counter, "--start", 5, "--speed", 10,
                                "--error-ppm", 300000, "--node", "a,error-ppm=200000",
                                *self.script(f"$P {SECOND}; $T node a -- $P {SECOND}; $P"))
                lines = self.compare(5 * SECOND)
                reads = [line for line in lines if ",realtime," in line[4]]
                self.assertEqual([line[1] for line in reads], ["", "", "a", "a", ""])
                self.assertTrue(reads[1][0] > SECOND and reads[3][0] > 2 * SECOND)
                for at, node, ahead, *_ in reads:
                    # both errors are by the host's time
                    lag = at - at * 12 // 13 if node else 0
                    self.assertLessEqual(abs(ahead + lag), 2 + at // 10**8)


class Written(RunTest):
    """Records that are written here."""

    def merge(self, places, script, start="openhz,64,1000000000,1,0,100,0"):
        """Merges the script of a node, next to that of a program that does nothing."""
        self.file("r.nodes", f"true,0,0,1,0\n,0,0,1,0\n{places}")
        self.file("r", "openhz,64,1000000000,1,0,100,0\n")
        self.file("r.a", f"{start}\n{script}")
        run = call([TKRUN, "merge", self.folder / "r"])
        self.assertEqual((run.returncode, run.stderr), (0, ""))
        lines = run.stdout.splitlines()
        self.assertEqual(lines[0], "0.000000000,,+0.000000000,ok,error-ppm,0,+0.000000")
        return [line.replace("000000000", "G") for line in lines[1:]]

    def test_reads_of_threads_and_changes_of_the_error(self):
        # two threads may write reads in another order, and a change may come after all of them
        reads = ["get,7G,realtime,107G", "get,4G,realtime,104G", "get,6G,realtime,106G"]
        script = "\n".join(reads).replace("G", "000000000")
        self.assertEqual(self.merge("a,0,0,1,0\na,5G,5G,2,0\na,9G,13G,1,1\n"
                                    .replace("G", "000000000"), script), [
            "0.G,a,+0.G,ok,error-ppm,0,+0.000000",
            "4.G,a,+0.G,ok,get,4G,realtime,104G",
            "5.G,a,+0.G,ok,error-ppm,5G,+1G.000000".replace("1G", "1000000"),
            "5.500000000,a,+0.500000000,ok,get,6G,realtime,106G",
            "6.G,a,+1.G,ok,get,7G,realtime,107G",
            # its clocks are those after the last command, so its REALTIME goes on until then
            "9.G,a,+4.G,ok,error-ppm,13G,-500000.000000"])

    def test_a_counter_that_wraps(self):
        # 16 bits at 1 MHz: after 30, 60 and 90 ms, and 5 us before that
        script = "update,30000\nupdate,60000\nget,24464,realtime,1\nget,24459,monotonic,2\n"
        self.assertEqual(self.merge("a,0,0,4503599627371,52\n", script,
                                    "openhz,16,1000000,1,0,100,0")[1:], [
            "0.089995000,a,+0.G,ok,get,24459,monotonic,2",
            "0.090000000,a,+0.G,ok,get,24464,realtime,1"])

    def test_a_reading_before_the_opening(self):
        # as if a thread had been slow: it is placed at the start
        self.assertEqual(self.merge("a,0,0,1,0\n", f"get,{2**64 - 7},monotonic,0\n")[1:],
                         [f"0.G,a,+0.G,ok,get,{2**64 - 7},monotonic,0"])

    def test_a_second_that_begins_at_a_read(self):
        # a leap second at the end of 1970-01-01, 10 s after the start
        start = "openhz,64,1000000000,1,0,86390,0,250"
        script = "adjtimex,5,16,0,0,0,0,16,0,0,0,0\nget,12000000000,realtime,86401000000000\n"
        lines = self.merge("a,0,0,1,0\n", script, start)
        self.assertEqual(lines[1:], [
            "0.000000005,a,+86290.G,ok,adjtimex,5,16,0,0,0,0,16,0,0,0,0",
            "12.G,a,+86289.G,ok,get,12G,realtime,86401G"])

    def test_a_refused_read(self):
        # 32 bits contain the reading minus 2^32
        self.assertEqual(self.merge("a,0,0,1,0\n", "get,5000000000,realtime\n",
                                    "openhz,32,1000000,1,0,100,0")[1:],
                         ["0.705032704,a,,invalid,get,5G,realtime"])
