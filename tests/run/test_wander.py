"""Nodes whose counters wander. The walk, and the counters that follow from it, are computed."""
import itertools
import os
import subprocess
from fractions import Fraction

from runs import STILL, TKRUN, RunTest, call, program

SECOND = 10**9
STEP = 10 * SECOND
CLOCKS = program("nodes_clocks")
WORD = 2**64 - 1


def walk(step, seed, name):
    """The error of a node in ppm, at each step."""
    state, ppm = 0xcbf29ce484222325, 0.0
    for byte in name.encode():
        state = (state ^ byte) * 0x100000001b3 & WORD
    state ^= seed
    while True:
        state = state + 0x9e3779b97f4a7c15 & WORD
        mixed = (state ^ state >> 30) * 0xbf58476d1ce4e5b9 & WORD
        mixed = (mixed ^ mixed >> 27) * 0x94d049bb133111eb & WORD
        mixed ^= mixed >> 31
        ppm += float(mixed - (mixed >> 63 << 64)) * 2.0**-63 * step
        ppm = min(max(ppm, -100000.0), 100000.0)
        yield ppm


class Wander(RunTest):
    def run_nodes(self, text, *options):
        """Runs a script on the program's clocks, with a record."""
        return self.run_on(*STILL, "--start", 5, "--record", self.folder / "r", "--check", *options,
                           "--", "sh", "-c", f"cd {self.folder}; T={TKRUN} P={CLOCKS}; {text}")

    def places(self, name):
        """A node's lines of the file: the common counter, the reading and the factor."""
        lines = [line.split(",") for line in (self.folder / "r.nodes").read_text().splitlines()]
        return [(int(common), int(reading), Fraction(int(scale), 2**int(shift)))
                for node, common, reading, scale, shift in lines if node == name]

    def compare(self, name, starts, errors):
        """Compares a node's lines with the values of the common counter at which its error has
        changed, and with the errors. Returns its reading as a function of the common counter."""
        places, reading = self.places(name), 0
        self.assertEqual([place[0] for place in places], starts)
        for i, (place, ppm) in enumerate(zip(places, errors)):
            if i:
                common, _, factor = places[i - 1]
                reading += (place[0] - common) * factor // 1
            self.assertEqual(place[1], reading)
            self.assertLess(abs(place[2] - Fraction(1 + ppm * 1e-6)), Fraction(1, 2**61))

        def reading_at(common):
            start, first, factor = [place for place in places if place[0] <= common][-1]
            return first + (common - start) * factor // 1
        return reading_at

    def test_the_walk_of_two_nodes(self):
        out = self.run_nodes("sleep 3000; $P; $T node a -- $P; $T node b -- $P",
                             "--node", "a,wander-ppm=40000,seed=18446744073709551615",
                             "--node", "b,wander-ppm=0.25,error-ppm=-100", "--node", "c")
        now = 3000 * SECOND + 1
        starts = list(range(0, now, STEP))
        errors = [0, *itertools.islice(walk(40000, 2**64 - 1, "a"), 300)]
        self.assertTrue({100000.0, -100000.0} <= set(errors))
        a = self.compare("a", starts, errors)(now)
        b = self.compare("b", starts, [-100, *(ppm - 100 for ppm in
                                               itertools.islice(walk(0.25, 0, "b"), 300))])(now)
        self.compare("c", [0], [0])
        self.assertEqual(out, "".join(f"{5 * SECOND + node} {node}\n" for node in [now, a, b]))

    def test_a_wait_ends_by_the_walk(self):
        out = self.run_nodes(f"$T node a -- $P {95 * SECOND}; $P",
                             "--node", "a,wander-ppm=30000,seed=5")
        _, slept, now = [int(line.split()[1]) for line in out.splitlines()]
        reading_at = self.compare("a", list(range(0, now, STEP)),
                                  [0, *itertools.islice(walk(30000, 5, "a"), 12)])
        self.assertEqual(slept, reading_at(now))
        self.assertLess(reading_at(now - 1), 95 * SECOND + 1)
        self.assertGreaterEqual(slept, 95 * SECOND + 1)

    def test_another_error_is_added_to_the_walk(self):
        plan = self.file("plan", "at 15 a freq 1000\nat 20 a freq -2000\n")
        self.run_nodes("sleep 32", "--node", "a,wander-ppm=10,error-ppm=7", "--plan", plan)
        one, two, three = itertools.islice(walk(10, 0, "a"), 3)
        self.compare("a", [0, 10 * SECOND, 15 * SECOND, 20 * SECOND, 20 * SECOND, 30 * SECOND],
                     [7, 7 + one, 1000 + one, 1000 + two, -2000 + two, -2000 + three])

    def test_a_seed_makes_the_same_record(self):
        def files(seed, name="a"):
            steps = " ".join([str(7 * SECOND)] * 30)
            self.run_nodes(f"$T node {name} -- $P {steps} >out",
                           "--node", f"{name},wander-ppm=1{seed}")
            return [(self.folder / file).read_text()
                    for file in ("r", f"r.{name}", "r.nodes", "out")]

        first = files(",seed=3")
        self.assertEqual(files(",seed=3"), first)
        for other in [files(",seed=4"), files(",seed=3", "b")]:
            # by its own clocks, a node sees no walk
            self.assertTrue(other[1] != first[1] and other[2] != first[2] and other[3] == first[3])
        self.assertEqual(files(",seed=0"), files(""))

    def test_a_walk_moves_no_counter(self):
        text = f"echo $TKRUN; read line; {TKRUN} node a -- {CLOCKS}"
        with subprocess.Popen([TKRUN, "--quiet", *STILL, "--start", "5", "--node",
                               "a,wander-ppm=1", "--", "sh", "-c", text], text=True,
                              stdin=subprocess.PIPE, stdout=subprocess.PIPE,
                              stderr=subprocess.PIPE) as run:
            env = {**os.environ, "TKRUN": run.stdout.readline().strip()}
            for _ in range(20):  # tkrun answers each when all threads wait
                self.assertEqual(call([TKRUN, "ctl", "a", "step", "1"], env=env).returncode, 0)
            self.assertEqual(run.communicate("\n", timeout=100), (f"{25 * SECOND} 0\n", ""))

    def test_wrong_options(self):
        made = self.folder / "made"
        for words, sentence in [
                ("wander-ppm=x", "--wander-ppm: 'x' isn't a number from 0 to 100000"),
                ("wander-ppm=-1", "--wander-ppm: '-1' isn't"),
                ("wander-ppm=100001", "--wander-ppm: '100001' isn't"),
                ("wander-ppm=nan", "--wander-ppm: 'nan' isn't"),
                ("seed=-1", "--seed: '-1' isn't a number from 0 to 18446744073709551615"),
                ("seed=18446744073709551616", "--seed: '18446744073709551616' isn't"),
                ("seed", "'seed' has no value")]:
            run = self.start(*STILL, "--node", f"a,{words}", "--", "touch", made)
            self.assertEqual((run.returncode, run.stderr.count("\n")), (2, 1))
            self.assertIn(f"tkrun: --node a: {sentence}", run.stderr)
        run = self.start("--node", "a,wander-ppm=1", "--", "touch", made)
        self.assertEqual((run.returncode, run.stderr), (
            2, "tkrun: --node a: wander-ppm needs --counter sleeps\n"))
        for option in ["--wander-ppm", "--seed"]:
            self.assertEqual(self.start(option, "1", "--", "touch", made).returncode, 2)
        self.assertFalse(made.exists())
