"""bind=own: a socket that a program binds to no address gets that of its node."""
import unittest

from links import PRELUDE, SECOND, START, LinkTest, options_of
from runs import STILL

MAKE = PRELUDE + """
def make(kind, name, only=0):
    s = socket.socket(socket.AF_INET6 if ":" in name else socket.AF_INET, kind)
    if ":" in name: s.setsockopt(socket.IPPROTO_IPV6, socket.IPV6_V6ONLY, only)
    if kind == socket.SOCK_STREAM: s.setsockopt(socket.SOL_SOCKET, socket.SO_REUSEADDR, 1)
    s.bind((name, PORT))
    return s
"""


class Bind(LinkTest):
    prelude = MAKE

    def make_options(self):
        return options_of(self.addresses, ",bind=own")

    def test_the_same_port_on_two_nodes(self):
        # by UDP and TCP, and by sockets of both families
        for name in ["0.0.0.0", "::"]:
            with self.subTest(name=name):
                out = self.on_links(["a,b,delay=1"], {
                    "a": f"""
                        s, t = make(socket.SOCK_DGRAM, "{name}"), make(socket.SOCK_STREAM, "{name}")
                        s.sendto(b"1", ("::ffff:" * (":" in "{name}") + B, PORT))
                        t.listen(); c = t.accept()[0]; print(c.recv(9).decode(), now())
                        """,
                    "b": f"""
                        s, t = make(socket.SOCK_DGRAM, "{name}"), make(socket.SOCK_STREAM, "{name}")
                        text, peer = s.recvfrom(9); print(text.decode(), peer[0].endswith(A), now())
                        c = socket.create_connection((A, PORT)); c.send(b"2"); time.sleep(3)
                        """})
                self.assertEqual(out["b"], [[1, "True", SECOND]])
                # 3 s for the connection, of which a takes part in the third
                self.assertEqual(out["a"], [[2, 4 * SECOND]])

    def test_names(self):
        text = """
            def free(kind, name, only=0): make(kind, name, only).close()
            for kind in socket.SOCK_DGRAM, socket.SOCK_STREAM:
                for name, only in [("0.0.0.0", 0), ("::", 0), ("::", 1), ("127.0.0.1", 0),
                                   ("::1", 0), (A, 0), ("::ffff:" + A, 0)]:
                    s = make(kind, name, only)
                    print(s.getsockname()[0], s.getsockname()[1] == PORT)
                    s.close()
            s = udp("", 0); print(s.getsockname()[0], s.getsockname()[1] > 0)
            s = socket.socket(socket.AF_UNIX); s.bind(chr(0) + A); print("unix")
            import ctypes
            libc, s = ctypes.CDLL(None, use_errno=True), udp()
            for name in (b"", b"\\2"):
                print(libc.bind(s.fileno(), name, len(name)), errno.errorcode[ctypes.get_errno()])
            print(libc.bind(s.fileno(), None, 16), errno.errorcode[ctypes.get_errno()])
            """
        own, mapped = self.addresses["a"], "::ffff:" + self.addresses["a"]
        names = [own, mapped, "::", "127.0.0.1", "::1", own, mapped]
        lines = [[name, "True"] for name in [*names, *names, own]] + [["unix"]]
        lines += [[-1, "EINVAL"]] * 2 + [[-1, "EFAULT"]]
        self.assertEqual(self.on_links(["a,b"], {"a": text})["a"], lines)

    def test_errors_are_those_of_the_call(self):
        text = """
            s = make(socket.SOCK_DGRAM, "0.0.0.0")
            for name in "0.0.0.0", A, "::":
                try: make(socket.SOCK_DGRAM, name)
                except OSError as error: print(errno.errorcode[error.errno])
            try: s.bind(("0.0.0.0", PORT + 1))
            except OSError as error: print(errno.errorcode[error.errno])
            make(socket.SOCK_DGRAM, "127.0.0.1"); print("free")
            """
        out = self.on_links(["a,b"], {"a": text})
        self.assertEqual(out["a"], [["EADDRINUSE"]] * 3 + [["EINVAL"], ["free"]])

    def test_nodes_without_it(self):
        # one node has it; the other one, and one without links, have none
        a, b, c = self.addresses.values()
        self.options = [*STILL, "--start", START, "--node", f"a,address={a}", "--node",
                        f"b,bind=own,address={b}", "--node", f"c,bind=own,address={c}"]
        text = "print(udp('', 0).getsockname()[0])"
        out = self.on_links(["a,b"], {name: text for name in "abc"})
        self.assertEqual(out, {"a": [["0.0.0.0"]], "b": [[b]], "c": [["0.0.0.0"]]})
        self.assertEqual(self.on_links([], {"b": text})["b"], [["0.0.0.0"]])

    def test_wrong_values(self):
        for words, sentence in [("bind=any,address=127.0.0.2", "bind 'any' isn't own"),
                                ("bind=,address=127.0.0.2", "bind '' isn't own"),
                                ("bind", "'bind' has no value"),
                                ("bind=own", "bind=own needs an address")]:
            with self.subTest(words=words):
                run = self.start("--node", f"a,{words}", "--", "true")
                self.assertEqual((run.returncode, run.stderr),
                                 (2, f"tkrun: --node a: {sentence}\n"))


if __name__ == "__main__":
    unittest.main()
