"""The options of links, and what is wrong with them."""
import unittest

from links import ADDRESSES, OPTIONS, SECOND, LinkTest
from runs import TKRUN, call


class Options(LinkTest):
    def fails(self, *words):
        """Runs tkrun with a wrong option. Returns its sentence."""
        made = self.folder / "made"
        run = self.start(*words, "--", "touch", made)
        self.assertEqual((run.returncode, run.stdout, made.exists()), (2, "", False))
        self.assertRegex(run.stderr, r"\Atkrun: [^\n]*\n\Z")
        return run.stderr[7:-1]

    def test_wrong_links(self):
        time = "isn't a time from 0 to 1000 s, such as 20ms"
        short = "isn't a time from 0 to 1000 s, such as 5ms"
        wrong = {
            "a": "it isn't NODE,NODE[,OPTION=VALUE]..", "": "there is no node ''",
            "a,d": "there is no node 'd'", "d,a": "there is no node 'd'",
            "a,delay=1": "there is no node 'delay=1'", "a,b,": "'' is no option of a link",
            "a,a": "a node has no link to itself", "b,b,delay=1": "a node has no link to itself",
            "a,b,size=1": "'size' is no option of a link", "a,b,delay": f"delay '' {time}",
            "a,b,delay=-1": f"delay '-1' {time}", "a,b,delay=1m": f"delay '1m' {time}",
            "a,b,delay=1001": f"delay '1001' {time}", "a,b,delay=nan": f"delay 'nan' {time}",
            "a,b,delay=0x1": f"delay '0x1' {time}", "a,b,delay=1e3": f"delay '1e3' {time}",
            "a,b,delay=1.2.3": f"delay '1.2.3' {time}", "a,b,delay= 1": f"delay ' 1' {time}",
            "a,b,jitter=-5ms": f"jitter '-5ms' {short}",
            "a,b,jitter=1000001ms": f"jitter '1000001ms' {short}",
            "a,b,loss=50%": "loss '50%' isn't a part from 0 to 1",
            "a,b,loss=1.01": "loss '1.01' isn't a part from 0 to 1",
            "a,b,rate=0": "rate '0' isn't bits per second from 1 to 1000G, such as 10M",
            "a,b,rate=1001G": "rate '1001G' isn't bits per second from 1 to 1000G, such as 10M",
            "a,b,queue=2G": "queue '2G' isn't bytes from 0 to 1G, such as 64k",
            "a,b,queue=1ms": "queue '1ms' isn't bytes from 0 to 1G, such as 64k",
            "a,b,seed=-1": "seed '-1' isn't a whole number below 2^53",
        }
        for words, sentence in wrong.items():
            with self.subTest(link=words):
                self.assertEqual(self.fails(*OPTIONS, "--link", words),
                                 f"--link {words}: {sentence}")
        self.assertEqual(self.fails(*OPTIONS, "--link", "a,b", "--link", "b,a", "--link",
                                    "a,b,delay=1"),
                         "--link a,b,delay=1: there is another one with these nodes")
        self.assertEqual(self.fails("--node", "a,address=127.0.0.2", "--node",
                                    "b,address=127.0.0.3", "--link", "a,b"),
                         "--link needs --counter sleeps")
        self.assertEqual(self.fails("--counter", "sleeps", "--node", "a,address=127.0.0.2",
                                    "--node", "b", "--link", "a,b"),
                         "--link a,b: the node 'b' has no address")

    def test_limits_of_values(self):
        for words in ["delay=1000", "delay=1000000000us", "delay=0.5ns", "jitter=0", "loss=1",
                      "rate=1", "rate=1000G", "queue=1G,seed=9007199254740991", "queue=1.5k"]:
            self.run_on(*OPTIONS, "--link", f"a,b,{words}", "--", "true")

    def test_wrong_addresses(self):
        for text in ["127.0.0.1", "127.0.0.0", "127.64.0.0", "127.255.0.1", "128.0.0.1", "10.0.0.1",
                     "126.255.255.255", "127.0.0", "x", ""]:
            with self.subTest(address=text):
                self.assertEqual(self.fails("--node", f"a,address={text}"),
                                 f"--node a: address '{text}' isn't one from 127.0.0.2 to "
                                 "127.63.255.255")
        self.assertEqual(self.fails("--node", "a,address=127.0.0.2", "--node",
                                    "b,address=127.0.0.2"),
                         "--node b: two nodes have this address")
        self.run_on("--node", "a,address=127.63.255.255", "--node", "b,address=127.0.0.2", "--node",
                    "c", "--node", "d", "--", "true")
        for name in ["partition", "heal"]:
            self.assertIn("isn't a name", self.fails("--node", name))

    def test_wrong_addresses_of_ipv6(self):
        for text in ["::", "::1", ":", "fd00::g", "fd00:3", "fe80::1", "fe80::1%lo", "ff02::1",
                     "::ffff:127.0.0.2", "::127.0.0.2", "fd00::3/128", "fd00::3 ", "[fd00::3]"]:
            with self.subTest(address=text):
                self.assertEqual(self.fails("--node", f"a,address={text}"),
                                 f"--node a: address '{text}' isn't one of IPv6 for a node, such "
                                 "as fd00::3")
        self.assertEqual(self.fails("--node", "a,address=fd00::2", "--node",
                                    "b,address=FD00:0:0::2"),
                         "--node b: two nodes have this address")
        self.assertEqual(self.fails("--node", "a,address=127.0.0.2,address=fd00::2", "--node",
                                    "b,address=127.0.0.3,address=fd00::2"),
                         "--node b: two nodes have this address")
        for first, second in [("127.0.0.2", "127.0.0.3"), ("fd00::2", "fd00::3"),
                              ("fd00::2", "fd00::2")]:
            self.assertEqual(self.fails("--node", f"a,address={first},address={second}"),
                             f"--node a: address '{second}' is its second one of this family")
        self.assertEqual(self.fails("--counter", "sleeps", "--node", "a,address=127.0.0.2",
                                    "--node", "b,address=fd00::2", "--link", "a,b"),
                         "--link a,b: one node has an address of IPv4, the other of IPv6")

    def test_an_address_that_the_machine_does_not_have(self):
        # no machine has one of this prefix
        nodes = ["--counter", "sleeps", "--node", "a,address=127.0.0.2,address=2001:db8::2",
                 "--node", "b,address=127.0.0.3"]
        self.assertEqual(self.fails(*nodes, "--link", "a,b"),
                         "--node a: this machine has no address 2001:db8::2; "
                         "ip -6 addr add 2001:db8::2/128 dev lo nodad adds it")
        self.run_on(*nodes, "--", "true")  # without links, nothing leads there

    def test_wrong_partitions(self):
        wrong = {
            "partition a": "there is no node ''", "partition": "there is no node ''",
            "heal a d": "there is no node 'd'", "heal d a": "there is no node 'd'",
            "partition a a": "there is no link between 'a' and 'a'",
            "partition a c": "there is no link between 'a' and 'c'",
            "heal c b": "there is no link between 'c' and 'b'",
            "partition a b 1": "there is no node 'b 1'",
        }
        for words, sentence in wrong.items():
            with self.subTest(event=words):
                plan = self.file("plan", f"at 1 partition a b\nat 2 {words}\n")
                self.assertEqual(self.fails(*OPTIONS, "--link", "a,b", "--plan", plan),
                                 f"--plan: line 2: {sentence}")
                if words.count(" ") < 2:
                    continue
                run = self.start("--quiet", *OPTIONS, "--link", "a,b", "--", TKRUN, "ctl",
                                 *words.split())
                self.assertEqual(run.returncode, 2)
        self.run_on(*OPTIONS, "--link", "a,b", "--", TKRUN, "ctl", "partition", "b", "a")
        usage = call([TKRUN, "ctl", "heal"])
        self.assertEqual((usage.returncode, usage.stderr), (
            2, "tkrun: tkrun ctl NODE step|freq|suspend|leap [VALUE], or "
               "tkrun ctl partition|heal NODE NODE\n"))

    def test_messages_that_are_wrong(self):
        # the socket of tkrun gets bytes that are no message of the library
        text = """
            import array
            s = socket.socket(socket.AF_UNIX, socket.SOCK_DGRAM)
            name = os.path.dirname(os.environ["TKRUN"]) + "/net"
            own = udp().detach()
            files = [(socket.SOL_SOCKET, socket.SCM_RIGHTS, array.array("i", [own] * n))
                     for n in (1, 2)]
            addresses = [bytes(16), socket.inet_pton(socket.AF_INET6, "::ffff:" + B),
                         socket.inet_pton(socket.AF_INET6, "fd00::b")]
            def send(kind, node, address, lengths, family):
                head = struct.pack("2I16s2IH26x", kind, node, address, *lengths, family)
                for part in ([], files[:1], files[1:]):
                    for size in (0, 10, 60, 72, 70000):
                        s.sendmsg([(head + bytes(70000))[:size]], part, 0, name)
            for node in (0, 1, 3, 4, 2**32 - 1):
                for kind, family in ((0, 0), (1, 0), (2, 0), (2, 2), (2, 10), (3, 0)):
                    for lengths in ((0, 0), (16, 0), (29, 0), (16, 513), (16, 10**9), (0, 30)):
                        for address in addresses: send(kind, node, address, lengths, family)
            time.sleep(1); show("well")
            """
        out = self.on_links(["a,b"], {"a": text})
        self.assertEqual(out["a"], [["well", SECOND + 1]])


if __name__ == "__main__":
    unittest.main()
