"""ptp4l, unmodified, corrects the clocks of a node by a ptp4l on another one, over a link, with
stamps of the kernel (SO_TIMESTAMPING) of what it sends and gets."""
import shutil
import unittest

from links import ADDRESSES, LinkTest
from runs import STILL, TKRUN, needs_root

PTP4L = shutil.which("ptp4l", path="/usr/sbin:/sbin:/usr/bin:/bin")
SPAN = 300  # s of the clocks
COMMON = """[global]
time_stamping software
inhibit_multicast_service 1
clockIdentity 000000.0000.00000{number}
uds_address {folder}/{number}.socket
"""
SERVER = COMMON + "masterOnly 1\nunicast_listen 1\n[lo]\n"
CLIENT = COMMON + """slaveOnly 1
[unicast_master_table]
table_id 1
logQueryInterval 0
UDPv4 {server}
[lo]
unicast_master_table 1
"""


@needs_root("runs a ptp4l")
@unittest.skipUnless(PTP4L, "ptp4l isn't installed")
class Ptp4l(LinkTest):
    def error_after(self, *links):
        """How far the clock of b, which a corrects, is ahead of that of a in the end, in ns. It
        begins 0.5 s ahead, on a counter that is 40 ppm too fast."""
        names = {"folder": self.folder, "server": ADDRESSES["a"]}
        server = self.file("server", SERVER.format(number=1, **names))
        client = self.file("client", CLIENT.format(number=2, **names))
        text = f"""
            {TKRUN} node a -- {PTP4L} -m -f {server} >{self.folder}/a 2>&1 & P=$!
            {TKRUN} node b -- {PTP4L} -m -f {client} >{self.folder}/b 2>&1 & P="$P $!"
            sleep {SPAN}
            for name in a b; do {TKRUN} node $name -- date +%s%N; done
            kill $P; wait
            """
        words = [word for link in links for word in ("--link", link)]
        out = self.run_on(*STILL, "--stamps", "--start", "2030-01-01T00:00:00Z", "--uptime", 1000,
                          "--node", f"a,bind=own,address={ADDRESSES['a']}", "--node",
                          f"b,bind=own,address={ADDRESSES['b']},error-ppm=40,ahead=0.5", *words,
                          "--check", "--", "sh", "-c", text)
        self.assertNotIn("timed out", (self.folder / "b").read_text())
        first, second = map(int, out.split())
        return second - first

    def test_a_symmetrical_delay(self):
        self.assertLess(abs(self.error_after("a,b,delay=500us")), 1000)

    def test_an_asymmetry(self):
        # the client believes that both directions take as long, so it is off by a half
        self.assertLess(abs(self.error_after("a,b,delay=20ms", "b,a,delay=4ms") + 8000000), 1000)

    def test_jitter(self):
        self.assertLess(abs(self.error_after("a,b,delay=1ms,jitter=100us")), 100000)


if __name__ == "__main__":
    unittest.main()
