"""The names of sockets of IPv6: what getpeername returns, and what is sent to wrong names."""
import sys
import textwrap
import unittest

from by_six import FOURS, SIX, BothFamilies, BySix
from links import SECOND, STREAMS, LinkTest
from runs import call, succeeds

# the first bytes of the name of a socket, for calls of the C library
BYTES = """
import ctypes
libc = ctypes.CDLL(None, use_errno=True)
def name(family, address, size):
    head = struct.pack("H", family) + struct.pack("!H", PORT)
    host = socket.inet_pton(family, address)
    return (head + bytes(4 * (family == FAMILY)) + host + bytes(100))[:size]
"""


class Names(BothFamilies):
    prelude = FOURS + STREAMS + BYTES

    def test_servers_at_once(self):
        # each connection knows its server, also in another process and by another number
        out = self.on_links(["a,b,delay=1", "a,c,delay=1"], {
            "b": "l = [server((B, PORT + i)) for i in range(3)]; time.sleep(99)",
            "c": "l = [server((C, PORT + i)) for i in range(3)]; time.sleep(99)",
            "a": """
            time.sleep(1)
            names = [(node, PORT + i) for node in (B, C) for i in range(3)] * 20
            all = [tcp() for _ in names]
            for s, name in zip(all, names): s.setblocking(False); s.connect_ex(name)
            for s in all: select.select([], [s], [])
            print([s.getpeername()[:2] for s in all] == names)
            if not os.fork():
                print([s.dup().getpeername()[:2] for s in all] == names); os._exit(0)
            os.wait()
            # a socket that was refused, and then gets another server
            s = tcp(); print(errno.errorcode[s.connect_ex((B, PORT + 9))])
            print(s.connect_ex(names[1]), s.getpeername()[:2] == names[1], all[1] != s)
            """})
        self.assertEqual(out["a"], [["True"], ["True"], ["ECONNREFUSED"], [0, "True", "True"]])

    def test_names_without_their_scope(self):
        # 24 bytes, as in old programs
        self.options = self.make_options(",bind=own")
        out = self.on_links(["a,b,delay=1"], {
            "b": """
            s = socket.socket(socket.AF_INET6, socket.SOCK_DGRAM)
            libc.bind(s.fileno(), name(FAMILY, "::", 24), 24); print(s.getsockname()[0])
            show(s.recvfrom(9)[1][0])
            l = server(AT_B); l.accept(); show()
            """, "a": """
            time.sleep(1); s, t = udp(), tcp()
            libc.sendto(s.fileno(), b"1", 1, 0, name(FAMILY, B, 24), 24)
            time.sleep(2); libc.connect(t.fileno(), name(FAMILY, B, 24), 24)
            show(t.getpeername()[:2] == AT_B)
            """})
        self.assertEqual(out["a"], [["True", 5 * SECOND + 2]])
        self.assertEqual(out["b"], [[SIX["b"]], [SIX["a"], 2 * SECOND + 1], [6 * SECOND + 2]])

    def test_wrong_names(self):
        # each call returns what it returns on the host
        text = """
            def tell(*words): print(*words, errno.errorcode.get(ctypes.get_errno(), "-"))
            def attempt(family, kind, only, name):
                s = socket.socket(family, kind)
                if family == FAMILY: s.setsockopt(socket.IPPROTO_IPV6, socket.IPV6_V6ONLY, only)
                s.setblocking(False); ctypes.set_errno(0)
                if kind == socket.SOCK_DGRAM:
                    tell("sendto", libc.sendto(s.fileno(), b"x", 1, 0, name, len(name)))
                ctypes.set_errno(0); tell("connect", libc.connect(s.fileno(), name, len(name)))
            four, mapped = socket.AF_INET, "::ffff:" + FOUR_B
            for kind in socket.SOCK_DGRAM, socket.SOCK_STREAM:
                for size in 16, 28: attempt(four, kind, 0, name(FAMILY, B, size))
                attempt(four, kind, 0, name(FAMILY, mapped, 28))
                attempt(FAMILY, kind, 1, name(FAMILY, mapped, 28))
                attempt(FAMILY, kind, 1, name(four, FOUR_B, 16))
                for size in 0, 2, 15, 16, 23: attempt(FAMILY, kind, 0, name(FAMILY, B, size))
                for size in 24, 27, 28, 29, 104: attempt(FAMILY, kind, 0, name(FAMILY, B, size))
            attempt(FAMILY, socket.SOCK_STREAM, 0, name(four, FOUR_B, 16))
            attempt(FAMILY, socket.SOCK_DGRAM, 0, name(four, FOUR_B, 16))
            """
        head = f"NODES = {tuple(SIX.values())}\n" + self.prelude
        listens = "l = server(AT_B), udp(*AT_B)\n"
        host = call([*self.network, sys.executable, "-c", head + listens + textwrap.dedent(text)])
        self.assertEqual((host.returncode, host.stderr), (0, ""))
        self.assertGreater(host.stdout.count("EINVAL"), 10)
        out = self.on_links(["a,b,delay=1"], {"b": listens + "time.sleep(9)", "a": text})
        self.assertEqual((self.folder / "a").read_text(), host.stdout)
        self.assertTrue(out["a"])


# a network with ten ports for those who don't choose one
FEW_PORTS = [*BySix.network, "sh", "-c",
             "echo 50000 50009 >/proc/sys/net/ipv4/ip_local_port_range && exec \"$@\"", "sh"]


@unittest.skipUnless(succeeds(*FEW_PORTS, "true"), "no network can be made with fewer ports")
class FewPorts(BySix, LinkTest):
    network = FEW_PORTS
    prelude = STREAMS

    def test_other_connections_keep_their_names(self):
        # those of ::1 and within the node, by ports that tkrun's ends have had
        out = self.on_links(["a,b"], {
            "b": "listen()\nfor _ in range(6): listener.accept()", "a": """
            time.sleep(1)
            for i in range(6): s = tcp(); s.connect(AT_B); reset(s)
            for name in (A, PORT), ("::1", PORT):
                l = server(name); right = 0
                for port in range(50000, 50010):
                    s = tcp(); s.setsockopt(socket.SOL_SOCKET, socket.SO_REUSEADDR, 1)
                    s.bind((name[0], port)); s.connect(name); t, peer = l.accept()
                    right += t.getpeername() == peer == s.getsockname() and \\
                             s.getpeername()[:2] == name == t.getsockname()[:2]
                    reset(s); time.sleep(0.001)
                print(right)
            """})
        self.assertEqual(out["a"], [[10], [10]])

    def test_more_connections_than_ports(self):
        out = self.on_links(["a,b,delay=1ms"], {
            "b": """
            l, all = server(AT_B, backlog=99), []
            while not all or all[-1].recv(9) != b"all": all.append(l.accept()[0])
            for s in all: s.close()
            time.sleep(9)
            """, "a": """
            time.sleep(1)
            made, errors = [], set()
            for i in range(12):
                s = tcp(); error = s.connect_ex(AT_B)
                if error: errors.add(errno.errorcode[error])
                else: made.append(s)
            print(4 < len(made) < 11, errors)
            for s in made[:-1]: s.close()
            made[-1].send(b"all"); made[-1].recv(9); made[-1].close()
            time.sleep(1); s = tcp(); print(s.connect_ex(AT_B), s.getpeername()[:2] == AT_B)
            """})
        self.assertEqual(out["a"], [["True", "{'ENOBUFS'}"], [0, "True"]])


if __name__ == "__main__":
    unittest.main()
