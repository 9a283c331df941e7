"""The examples of clusters: a day of chronyd, minutes of ptp4l, and a lease that two clients hold at once."""
import os
import pathlib
import shutil
import subprocess
import unittest

from runs import TKRUN, needs_root

EXAMPLES = pathlib.Path(__file__).resolve().parents[2] / "examples/cluster"
PTP4L = shutil.which("ptp4l", path="/usr/sbin:/sbin:/usr/bin:/bin")
CHRONYD = shutil.which("chronyd", path="/usr/sbin:/sbin:/usr/bin:/bin")


def run(name, *words):
    """Runs an example. Returns its status, and the lines that it prints and complains."""
    ran = subprocess.run([EXAMPLES / name, *words], stdout=subprocess.PIPE, stderr=subprocess.PIPE,
                         text=True, check=False, env={**os.environ, "TKRUN_PROGRAM": TKRUN})
    return ran.returncode, ran.stdout.splitlines(), ran.stderr.splitlines()


class Chronyd(unittest.TestCase):
    @needs_root("runs a chronyd")
    @unittest.skipUnless(CHRONYD, "chronyd isn't installed")
    def test_clients_follow_the_server(self):
        status, lines, said = run("chronyd", "3")
        self.assertEqual((0, []), (status, said))
        self.assertEqual(["hour", "server", "fast", "slow"], lines[0].split())
        rows = [[int(word) for word in line.split()] for line in lines[1:]]
        self.assertEqual([0, 1, 2, 3], [row[0] for row in rows])
        self.assertEqual([0, 2000000, -5000000], rows[0][1:])
        for _, server, *clients in rows[1:]:
            self.assertEqual(0, server)
            # (a half of what the network's delay varies by)
            self.assertLess(max(abs(ahead) for ahead in clients), 250)

    def test_wrong_words(self):
        for words in (["x"], [""], ["-1"]):
            with self.subTest(words):
                self.assertEqual((2, [], ["usage: examples/cluster/chronyd [HOURS]"]),
                                 run("chronyd", *words))


class Ptp4l(unittest.TestCase):
    @needs_root("runs a ptp4l")
    @unittest.skipUnless(PTP4L, "ptp4l isn't installed")
    def test_a_client_follows_the_server(self):
        status, lines, said = run("ptp4l", "2")
        self.assertEqual((0, []), (status, said))
        self.assertEqual(["minute", "client"], lines[0].split())
        rows = [[int(word) for word in line.split()] for line in lines[1:]]
        self.assertEqual([0, 500000000], rows[0])
        self.assertEqual([1, 2], [minute for minute, _ in rows[1:]])
        self.assertLess(max(abs(ahead) for _, ahead in rows[1:]), 10000)

    def test_wrong_words(self):
        for words in (["x"], [""], ["-1"]):
            with self.subTest(words):
                self.assertEqual((2, [], ["usage: examples/cluster/ptp4l [MINUTES]"]),
                                 run("ptp4l", *words))


class Lease(unittest.TestCase):
    def test_a_seed_finds_it_and_finds_it_again(self):
        found = run("lease.py", "9-10")
        self.assertEqual((0, [], 1), (found[0], found[2], len(found[1])))
        self.assertRegex(found[1][0], r"^seed 10: both held the lease for 0\.[0-9]{3} ms$")
        self.assertEqual(found, run("lease.py", "10"))

    def test_wrong_words(self):
        usage = "usage: examples/cluster/lease.py [SEEDS]     such as 7 or 7-20"
        for words in (["x"], ["1-"], ["1-x"]):
            with self.subTest(words):
                status, lines, said = run("lease.py", *words)
                self.assertEqual((2, [], [usage]), (status, lines, said))


if __name__ == "__main__":
    unittest.main()
