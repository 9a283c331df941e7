"""chronyd, unmodified, corrects the clocks of a node by a chronyd on another one, over a link."""
import shutil
import unittest

from links import PORT, LinkTest
from runs import STILL, TKRUN, needs_root

CHRONYD = shutil.which("chronyd", path="/usr/sbin:/sbin:/usr/bin:/bin")
SPAN = 3600  # s of the clocks


@needs_root("runs a chronyd")
@unittest.skipUnless(CHRONYD, "chronyd isn't installed")
class Chrony(LinkTest):
    def error_after(self, *links):
        """How far the clock of b, which a corrects, is ahead of that of a in the end, in s. It
        begins 2 s ahead, on a counter that is 80 ppm too fast."""
        common = f"cmdport 0\nbindcmdaddress /\nclockprecision 1e-9\npidfile {self.folder}/"
        server = self.file("server", f"{common}server.pid\nlocal stratum 1\nallow\n"
                                     f"bindaddress {self.addresses['a']}\nport {PORT}\n")
        source = f"server {self.addresses['a']} port {PORT} minpoll 4 maxpoll 4 iburst"
        client = self.file("client", f"{common}client.pid\nport 0\nmakestep 0.1 3\n{source}\n")
        daemon = f"{CHRONYD} -d -u root -F 0"
        text = f"""
            cd {self.folder}
            {TKRUN} node a -- {daemon} -x -f {server} >a 2>&1 & P=$!
            {TKRUN} node b -- {daemon} -f {client} >b 2>&1 & P="$P $!"
            sleep {SPAN}
            for name in a b; do {TKRUN} node $name -- date +%s%N; done
            kill $P; wait
            """
        words = [word for link in links for word in ("--link", link)]
        out = self.run_on(*STILL, "--start", "2030-01-01T00:00:00Z", "--node",
                          f"a,address={self.addresses['a']}", "--node",
                          f"b,address={self.addresses['b']},error-ppm=80,ahead=2", *words, "--check",
                          "--", "sh", "-c", text)
        first, second = map(int, out.split())
        return (second - first) / 1e9

    def test_an_asymmetry(self):
        # the client believes that both directions take as long, so it is off by a half
        self.assertAlmostEqual(self.error_after("b,a,delay=10ms", "a,b,delay=30ms"), -0.01,
                               delta=1e-6)
        self.assertAlmostEqual(self.error_after("b,a,delay=10ms", "a,b,delay=4ms"), 0.003,
                               delta=1e-6)

    def test_a_symmetrical_delay(self):
        self.assertAlmostEqual(self.error_after("a,b,delay=20ms"), 0, delta=1e-6)

    def test_jitter_and_loss(self):
        self.assertAlmostEqual(self.error_after("a,b,delay=10ms,jitter=5ms,loss=0.1"), 0,
                               delta=0.0025)


if __name__ == "__main__":
    unittest.main()
