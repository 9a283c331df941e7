"""--seed: its values, and the random numbers of links and walks that come from it."""
from links import LINKS, LinkTest
from runs import STILL, TKRUN, RunTest, call

from test_wander import WORD, walk

# the seeds of the two uses, for each seed of a run, as seeds.h computes them
STEP = 0x9e3779b97f4a7c15


def mix(bits):
    """The mixing of splitmix64."""
    bits = (bits ^ bits >> 30) * 0xbf58476d1ce4e5b9 & WORD
    bits = (bits ^ bits >> 27) * 0x94d049bb133111eb & WORD
    return bits ^ bits >> 31


def seed_for(seed, use):
    return mix(mix(seed + 1 & WORD) + (use + 1) * STEP & WORD)


class Values(RunTest):
    def test_wrong_values(self):
        for value in ["", "x", "-1", "1.5", "1e3", "18446744073709551616"]:
            run = self.start(*STILL, "--seed", value, "--", "true")
            self.assertEqual((run.returncode, run.stdout), (2, ""))
            self.assertIn("--seed", run.stderr)
        self.assertEqual(self.start(*STILL, "--seed").returncode, 2)
        for counter in [[], ["--counter", "raw"], ["--counter", "tsc"]]:
            run = self.start(*counter, "--seed", "1", "--", "true")
            self.assertEqual((run.returncode, run.stderr),
                             (2, "tkrun: --seed needs --counter sleeps\n"))

    def test_the_least_and_the_greatest(self):
        for value in [0, WORD]:
            self.assertEqual(self.run_on(*STILL, "--seed", value, "--", "echo", "ran"), "ran\n")

    def test_it_is_in_the_help(self):
        self.assertIn("--seed N", call([TKRUN, "--help"]).stdout)


class Walks(RunTest):
    def errors(self, *options):
        """The factors of two nodes, after the first steps of their walks."""
        self.run_on(*STILL, "--start", 5, "--record", self.folder / "r", *options, "--", "sh", "-c",
                    f"{TKRUN} node a -- true; sleep 25")
        lines = [line.split(",") for line in (self.folder / "r.nodes").read_text().splitlines()]
        return {node: [int(scale) / 2**int(shift) for name, _, _, scale, shift in lines
                       if name == node][1:] for node in "ab"}

    def compare(self, found, name, seed):
        steps = walk(50, seed, name)
        self.assertEqual(len(found[name]), 2)
        for factor in found[name]:
            self.assertAlmostEqual(factor, 1 + next(steps) * 1e-6, delta=1e-12)

    def test_a_walk_without_a_seed_has_that_of_the_run(self):
        nodes = ["--node", "a,wander-ppm=50", "--node", "b,wander-ppm=50,seed=7"]
        for seed in [1, 2]:
            found = self.errors("--seed", seed, *nodes)
            self.compare(found, "a", seed_for(seed, 0))
            self.compare(found, "b", 7)
        found = self.errors(*nodes)  # without --seed
        self.compare(found, "a", 0)
        self.compare(found, "b", 7)


class Links(LinkTest):
    def arrivals(self, *options, own=""):
        """When a sees the datagrams that b sends at once: the jitter of each."""
        text = """
        s = udp(A, PORT)
        s.settimeout(50)
        for i in range(8): s.recv(100); show()
        """
        sends = """
        time.sleep(1)
        s = udp(B, PORT)
        for i in range(8): s.sendto(b"x", (A, PORT))
        """
        seen = self.on_links([f"b,a,jitter=1s{own}", LINKS[0]], {"a": text, "b": sends}, *options)
        return [line[0] for line in seen["a"]]

    def expected(self, seed):
        """The times, by the draws of the link from b to a: one for the loss, and one for the
        jitter."""
        start = mix(seed + 1 & WORD) + mix(2 << 8 | 1) & WORD
        draws = [mix(start + n * STEP & WORD) >> 11 for n in range(1, 17)]
        return sorted(10**9 + 1 + int(draw * 2.0**-53 * 10**9) for draw in draws[1::2])

    def test_a_link_without_a_seed_has_that_of_the_run(self):
        for seed in [1, 2]:
            self.assertEqual(self.arrivals("--seed", seed), self.expected(seed_for(seed, 1)))
        self.assertEqual(self.arrivals("--seed", 1, own=",seed=9"), self.expected(9))
        self.assertEqual(self.arrivals(own=",seed=0"), self.arrivals())
        self.assertEqual(self.arrivals(), self.expected(0))
        self.assertEqual(self.arrivals("--seed", 1, own=",seed=0"), self.expected(0))
