"""The calls that send datagrams over a link, and what they return for wrong memory."""
import re
import sys
import unittest

from links import MILLI, PORT, SECOND, LinkTest
from runs import call, program
from test_net_datagrams import RECEIVE_SOME

SENDS, FAULTS = program("net_sends"), program("net_faults")
# the texts of net_sends in the order of its calls
TEXTS = ["sendmsg", "send", "msgmmsg", "sendto", "sendmsg", "send", "msgmmsg", "connected", "write",
         "writev", "", "", "control"]
FAULTS_COUNT = 147  # calls of net_faults that find memory that isn't there
# sends to this host, and prints what has arrived after an empty line
ON_HOST = f"""import socket, subprocess
receiver = socket.socket({{family}}, socket.SOCK_DGRAM)
receiver.bind(("{{host}}", 0))
subprocess.run(["{FAULTS}", "{{host}}", str(receiver.getsockname()[1])], check=True)
print()
text = b""
while text != b"last": text = receiver.recv(99); print(text.decode())
"""
RECEIVE_ALL = """
    s = udp("", PORT)
    while True:
        text, name = s.recvfrom(70000)
        show(text.decode() if len(text) < 100 else len(text), name[0])
        if len(text) >= 65507: break
"""


class Sends(LinkTest):
    most = 65507  # bytes of a datagram
    other_name = "127.0.0.77"

    def names_of_b(self):
        return [self.addresses["b"], "::ffff:" + self.addresses["b"]]

    def test_each_call_that_sends(self):
        for address in self.names_of_b():
            with self.subTest(address=address):
                out = self.on_links(["a,b,delay=20ms"], {
                    "b": RECEIVE_ALL,
                    "a": f"time.sleep(1); os.execv('{SENDS}', ['s', '{address}', str(PORT)])"})
                self.assertEqual(out["a"], [])
                texts = [*TEXTS, self.most]
                names = [self.addresses["a"]] * len(texts)
                names[TEXTS.index("control")] = self.other_name  # see net_sends.c
                expected = [[text, name, SECOND + 1 + 20 * MILLI] if text != "" else
                            [name, SECOND + 1 + 20 * MILLI] for text, name in zip(texts, names)]
                self.assertEqual(out["b"], expected)

    def test_control_data_without_an_address(self):
        # the node's address sends: IP_TTL and IPV6_HOPLIMIT don't change that
        out = self.on_links(["a,b"], {
            "b": "s = udp(*AT_B)\nfor i in range(2): print(s.recvfrom(9)[1][0])",
            "a": """
                part = (41, 52) if FAMILY == socket.AF_INET6 else (0, 2)
                time.sleep(1)
                for s in udp(), udp(ANY, PORT + 1):
                    s.sendmsg([b"1"], [(*part, struct.pack("i", 9))], 0, AT_B)
                """})
        self.assertEqual(out["b"], [[self.addresses["a"]]] * 2)

    def test_memory_that_is_not_there(self):
        # each call returns what it returns on the host, and what was sent there arrives
        host = call([*self.network, sys.executable, "-c", ON_HOST.format(
            family=self.family, host=self.host)])
        self.assertEqual((host.returncode, host.stderr), (0, ""))
        said, texts = host.stdout.rsplit("\n\n", 1)
        texts = texts.splitlines()
        self.assertEqual(texts, ["edge"] * 3 + ["at the end"] * 3 + ["name at the end", "last"])
        self.assertEqual(len(re.findall(" -1 EFAULT", said)), FAULTS_COUNT)
        for options in [["--stamps"], ["--stamps", "--seed", "1"]]:
            out = self.on_links(["a,b,delay=1"], {
                "b": RECEIVE_SOME.format(2),
                "a": f"os.execv('{FAULTS}', ['s', B, str(PORT)])"}, *options)
            self.assertEqual((self.folder / "a").read_text(), said + "\n")
            self.assertEqual([(" ".join(line[:-1]), line[-1]) for line in out["b"]],
                             [(text, SECOND) for text in texts])


if __name__ == "__main__":
    unittest.main()
