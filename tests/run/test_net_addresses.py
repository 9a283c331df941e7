"""Nodes with addresses of both families, or of one only."""
import textwrap
import unittest

from by_six import FOURS, SIX, BothFamilies, BySix, node
from links import ADDRESSES, MILLI, PRELUDE, SECOND, START, LinkTest
from runs import STILL

# prints what is received, and from whom, until nothing has come for some time
RECEIVE = """
    s = {0}; s.settimeout(5)
    try:
        while True: text, name = s.recvfrom(9); show(text.decode(), name[0])
    except TimeoutError: show("none")
"""
ANY = "socket.socket(socket.AF_INET6, socket.SOCK_DGRAM); s.bind(('::', PORT))"


class Both(BothFamilies):
    def test_datagrams_of_both_families(self):
        out = self.on_links(["a,b,delay=1"], {"b": RECEIVE.format(ANY), "a": """
            six, four = udp(), socket.socket(socket.AF_INET, socket.SOCK_DGRAM)
            def send(number): s, name = sends[number]; s.sendto(b"%d" % number, (name, PORT))
            sends = [(six, B), (four, FOUR_B), (six, "::ffff:" + FOUR_B), (six, B)]
            for i in range(4): time.sleep(1); send(i)
            """})
        four = "::ffff:" + ADDRESSES["a"]
        self.assertEqual([line[:-1] for line in out["b"]],
                         [[0, SIX["a"]], [1, four], [2, four], [3, SIX["a"]], ["none"]])
        self.assertEqual([line[-1] for line in out["b"][:4]],
                         [(i + 1) * (SECOND + 1) + SECOND for i in range(4)])

    def test_a_server_of_both_families(self):
        out = self.on_links(["a,b,delay=1"], {"b": """
            l = socket.create_server(("::", PORT), family=socket.AF_INET6, dualstack_ipv6=True)
            for _ in range(3): s, peer = l.accept(); show(peer[0], s.getsockname()[0])
            """, "a": """
            six = ("::ffff:" + FOUR_B, PORT)
            for family, name in [(FAMILY, AT_B), (socket.AF_INET, (FOUR_B, PORT)), (FAMILY, six)]:
                s = socket.socket(family); s.connect(name)
                print(s.getpeername()[:2] == name, s.getsockname()[0])
            """})
        own, four = SIX, {name: "::ffff:" + it for name, it in ADDRESSES.items()}
        self.assertEqual(out["a"], [["True", own["a"]], ["True", ADDRESSES["a"]],
                                    ["True", four["a"]]])
        self.assertEqual(out["b"], [[own["a"], own["b"], 3 * SECOND],
                                    [four["a"], four["b"], 5 * SECOND],
                                    [four["a"], four["b"], 7 * SECOND]])

    def test_a_server_of_ipv6_only(self):
        out = self.on_links(["a,b,delay=1"], {
            "b": "l = server((ANY, PORT)); show(l.accept()[1][0])", "a": """
            for family, name in [(socket.AF_INET, FOUR_B), (FAMILY, "::ffff:" + FOUR_B),
                                 (FAMILY, B)]:
                print(errno.errorcode.get(socket.socket(family).connect_ex((name, PORT))))
            """})
        self.assertEqual(out["a"], [["ECONNREFUSED"], ["ECONNREFUSED"], ["None"]])
        self.assertEqual(out["b"], [[SIX["a"], 7 * SECOND]])

    def test_one_rate_and_one_cut_for_both(self):
        # 1,250 bytes at 1 Mbit/s take 10 ms each
        plan = self.file("plan", "at 2 partition a b\n")
        out = self.on_links(["a,b,rate=1M"], {
            "b": "s = " + ANY + "\nfor i in range(4): show(s.recv(9)[:1].decode())\n"
                 "s.settimeout(9)\ntry: s.recv(9)\nexcept TimeoutError: show('none')",
            "a": """
            s = udp(); time.sleep(1)
            for i in range(4): s.sendto(b"%d" % i * 1250, ([B, "::ffff:" + FOUR_B][i % 2], PORT))
            time.sleep(2)
            for name in [B, "::ffff:" + FOUR_B]: s.sendto(b"x", (name, PORT))
            """}, "--plan", plan)
        self.assertEqual(out["b"][:4], [[i, SECOND + 1 + (i + 1) * 10 * MILLI] for i in range(4)])
        self.assertEqual(out["b"][4][0], "none")

    def test_the_host_stays_the_host(self):
        # ::1 is of no node: nothing there takes the time of a link
        out = self.on_links(["a,b,delay=1"], {"a": """
            l, u = server(("::1", PORT)), udp("::1", PORT); time.sleep(1)
            s = tcp(); s.connect(("::1", PORT)); s.send(b"1"); show(l.accept()[0].recv(9).decode())
            udp().sendto(b"2", ("::1", PORT)); show(u.recv(9).decode())
            """})
        self.assertEqual(out["a"], [[1, SECOND + 1], [2, SECOND + 1]])

    def test_own_addresses(self):
        self.options = self.make_options(",bind=own")
        text = """
            def bound(kind, family, name, only):
                s = socket.socket(family, kind)
                if family == FAMILY: s.setsockopt(socket.IPPROTO_IPV6, socket.IPV6_V6ONLY, only)
                s.bind((name, PORT)); own = s.getsockname(); s.close()
                print(own[0], own[1] == PORT)
            for kind in socket.SOCK_DGRAM, socket.SOCK_STREAM:
                for only in 0, 1: bound(kind, FAMILY, "::", only)
                bound(kind, socket.AF_INET, "0.0.0.0", 0)
            bound(socket.SOCK_DGRAM, FAMILY, "::1", 0)
        """
        own = [[SIX["a"], "True"]] * 2
        out = self.on_links(["a,b"], {"a": text})
        self.assertEqual(out["a"], [*own, [ADDRESSES["a"], "True"]] * 2 + [["::1", "True"]])
        # a node without IPv4
        self.options = [*STILL, "--start", START]
        for name in "ab":
            self.options += node(name, SIX[name], more=",bind=own")
        out = self.on_links(["a,b"], {"a": text})
        self.assertEqual(out["a"], [*own, ["0.0.0.0", "True"]] * 2 + [["::1", "True"]])
        # the same port on two nodes
        out = self.on_links(["a,b,delay=1"], {
            "a": "s = udp('::', PORT); s.sendto(b'1', AT_B); show(s.recv(9).decode())",
            "b": "s = udp('::', PORT); text, name = s.recvfrom(9); s.sendto(text, name)"})
        self.assertEqual(out["a"], [[1, 2 * SECOND]])

    def test_the_same_run_by_both_families(self):
        # with --seed, also the same times: a link draws its numbers for what is sent by either
        def run(names):
            out = self.on_links(["a,b,delay=3ms,jitter=2ms,loss=0.2,rate=90M"], {
                "b": f"B = {names}[1]; AT_B = B, PORT\nFAMILY = {names}[2]\n"
                     "s = udp(*AT_B); listen()\n"
                     "for i in range(20): show(s.recv(9).decode())\nserve()",
                "a": f"B = {names}[1]; AT_B = B, PORT\nFAMILY = {names}[2]\ntime.sleep(1)\n"
                     "s = udp()\nfor i in range(60): s.sendto(b'%d' % i, AT_B)\n"
                     "time.sleep(1); s = connect(AT_B); s.sendall(bytes(10**6)); s.close()"},
                                "--seed", "5")
            return [[line for line in out[name] if line[0] != "accepted"] for name in "ab"]
        six = run("(A, B, socket.AF_INET6)")
        self.assertEqual(run("(FOUR_A, FOUR_B, socket.AF_INET)"), six)
        self.assertEqual(run("(A, B, socket.AF_INET6)"), six)


class OneFamily(BySix, LinkTest):
    """a has an address of IPv4, c one of IPv6, and b both."""
    prelude = FOURS + PRELUDE

    def make_options(self):
        return [*STILL, "--start", START, *node("a", ADDRESSES["a"]),
                *node("b", ADDRESSES["b"], SIX["b"]), *node("c", SIX["c"])]

    def test_what_does_not_reach_the_other_family(self):
        # as on a machine without a route: and nothing arrives
        text = """
            time.sleep(1)
            def attempt(family, name):
                u, v = [socket.socket(family, socket.SOCK_DGRAM) for _ in range(2)]
                s, t = [socket.socket(family) for _ in range(2)]; t.setblocking(False)
                for call in (lambda: u.sendto(b"x", name), lambda: u.sendmsg([b"x"], [], 0, name),
                             lambda: v.connect(name), lambda: s.connect(name),
                             lambda: t.connect(name)):
                    try: call(); print("no error")
                    except OSError as error: print(errno.errorcode[error.errno])
                return u
        """
        other = {"a": 'attempt(FAMILY, AT_B).sendto(b"1", ("::ffff:" + FOUR_B, PORT))',
                 "c": 'attempt(socket.AF_INET, (FOUR_B, PORT)); udp().sendto(b"3", AT_B)'}
        out = self.on_links(["a,b,delay=1ms", "b,c,delay=2ms"], {
            "b": "l = socket.create_server(('::', PORT), family=FAMILY, dualstack_ipv6=True)\n"
                 + textwrap.dedent(RECEIVE.format(ANY)) +
                 "l.settimeout(0)\ntry: l.accept()\nexcept BlockingIOError: show('no connection')",
            **{name: f"{text}\n            {line}" for name, line in other.items()}})
        self.assertEqual(out["a"], [["ENETUNREACH"]] * 5)
        self.assertEqual(out["c"], [["ENETUNREACH"]] * 5)
        self.assertEqual([line[:-1] for line in out["b"]],
                         [[1, "::ffff:" + ADDRESSES["a"]], [3, SIX["c"]], ["none"],
                          ["no", "connection"]])
        self.assertEqual([line[-1] for line in out["b"][:2]],
                         [SECOND + 1 + MILLI, SECOND + 1 + 2 * MILLI])

    def test_nodes_without_ipv4(self):
        out = self.on_links(["b,c,delay=1"], {
            "b": "s = server(AT_B).accept()[0]; show(s.recv(9).decode())",
            "c": "s = socket.create_connection(AT_B); s.send(b'1'); show(s.getsockname()[0])"})
        self.assertEqual(out, {"b": [[1, 3 * SECOND]], "c": [[SIX["c"], 2 * SECOND]]})


if __name__ == "__main__":
    unittest.main()
