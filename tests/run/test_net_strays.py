"""What goes from one node to another by an address to which no link leads: tkrun names both."""
import unittest
from unittest import mock

from links import PORT, LinkTest
from runs import TKRUN, succeeds

# starts tkrun in a network where the host has an address of IPv6 more
ADDED = "ip link set lo up && ip -6 addr add fd00::3/128 dev lo nodad"
IN_NETWORK = f"""#!/bin/sh
exec unshare -n sh -c '{ADDED} && exec "$0" "$@"' {TKRUN} "$@"
"""

# takes a datagram or a connection, of one family, and stays until tkrun has looked
DATAGRAM = """
    s = socket.socket(socket.{0}, socket.SOCK_DGRAM); s.bind(("{1}", PORT))
    print(s.recv(9).decode()); time.sleep(1)
"""
STREAM = """
    s = socket.socket(socket.{0}); s.setsockopt(socket.SOL_SOCKET, socket.SO_REUSEADDR, 1)
    s.bind(("{1}", PORT)); s.listen()
    print(s.accept()[0].recv(9).decode()); time.sleep(1)
"""
SEND = """
    time.sleep(1)
    s = socket.socket(socket.{0}, socket.SOCK_DGRAM)
    s.{1}
"""
CONNECT = """
    time.sleep(1)
    s = socket.socket(socket.{0}); s.setblocking({2})
    s.connect_ex(("{1}", PORT))
    select.select([], [s], [])
    s.send(b"1")
"""


def said(address, port=PORT):
    return (f"tkrun: 'a' sends to 'b' by the address {address}, port {port}: no link leads there, "
            "so nothing is delayed or lost\n")


class Strays(LinkTest):
    def check(self, receive, send, says, links=("a,b,delay=1",)):
        out = self.on_links(links, {"b": receive, "a": send}, says=says)
        self.assertEqual(out, {"b": [[1]], "a": []})

    def test_datagrams_of_each_family_and_call(self):
        for family, own, address in [("AF_INET6", "::1", "::1"), ("AF_INET6", "::", "::1"),
                                     ("AF_INET", "127.0.0.1", "127.0.0.1"),
                                     ("AF_INET", "0.0.0.0", "127.0.0.9")]:
            for call in ['sendto(b"1", ("{0}", PORT))', 'sendmsg([b"1"], [], 0, ("{0}", PORT))',
                         'connect(("{0}", PORT)); s.send(b"1")']:
                with self.subTest(family=family, own=own, call=call):
                    self.check(DATAGRAM.format(family, own),
                               SEND.format(family, call.format(address)), said(address))

    @unittest.skipUnless(succeeds("unshare", "-n", "sh", "-c", ADDED), "no address can be added")
    def test_an_address_of_ipv6_that_root_added(self):
        program = self.file("tkrun", IN_NETWORK)
        program.chmod(0o755)
        with mock.patch("runs.TKRUN", program):
            for receive, send in [(DATAGRAM, SEND.format("AF_INET6",
                                                         'sendto(b"1", ("fd00::3", PORT))')),
                                  (STREAM, CONNECT.format("AF_INET6", "fd00::3", True))]:
                self.check(receive.format("AF_INET6", "fd00::3"), send, said("fd00::3"))

    def test_connections(self):
        for family, own, address in [("AF_INET6", "::1", "::1"), ("AF_INET6", "::", "::1"),
                                     ("AF_INET", "0.0.0.0", "127.0.0.1")]:
            for blocks in [True, False]:
                with self.subTest(family=family, own=own, blocks=blocks):
                    self.check(STREAM.format(family, own), CONNECT.format(family, address, blocks),
                               said(address))

    def test_a_server_of_both_families(self):
        self.check(STREAM.format("AF_INET6", "::"), CONNECT.format("AF_INET", "127.0.0.1", True),
                   said("127.0.0.1"))

    def test_it_is_said_once_for_two_nodes(self):
        text = """
            s = socket.socket(socket.AF_INET6, socket.SOCK_DGRAM); s.bind(("::1", PORT))
            for i in range(50):
                text, peer = s.recvfrom(9); s.sendto(text, peer)
            time.sleep(1)
        """
        ask = """
            time.sleep(1)
            s = socket.socket(socket.AF_INET6, socket.SOCK_DGRAM); s.bind(("::1", PORT + 1))
            for i in range(50): s.sendto(b"1", ("::1", PORT)); s.recv(9)
        """
        run = self.start("--quiet", *self.options, "--link", "a,b",
                         *self.script({"a": ask, "b": text}))
        # the question or the answer may be seen first
        back = said("::1", PORT + 1).replace("'a' sends to 'b'", "'b' sends to 'a'")
        self.assertIn((run.returncode, run.stderr), [(0, said("::1")), (0, back)])

    def test_a_receiver_that_comes_later(self):
        # the first ten find nobody
        send = """
            s = socket.socket(socket.AF_INET6, socket.SOCK_DGRAM)
            for i in range(11): s.sendto(b"1", ("::1", PORT)); time.sleep(1)
        """
        self.check("\n    time.sleep(9.5)" + DATAGRAM.format("AF_INET6", "::1"), send, said("::1"))

    def test_what_is_not_said(self):
        six = (DATAGRAM.format("AF_INET6", "::1"),
               SEND.format("AF_INET6", 'sendto(b"1", ("::1", PORT))'))
        self.check(*six, "", ["a,c", "b,c"])  # there is no link between them
        over = DATAGRAM.format("AF_INET", "0.0.0.0"), SEND.format("AF_INET", 'sendto(b"1", AT_B)')
        self.check(*over, "")
        mapped = (DATAGRAM.format("AF_INET6", "::"),
                  SEND.format("AF_INET6", 'sendto(b"1", ("::ffff:" + B, PORT))'))
        self.check(*mapped, "")
        # a node that sends to itself, by each family, and to nobody
        text = """
            for family, name in [(socket.AF_INET6, "::1"), (socket.AF_INET, "127.0.0.1")]:
                s = socket.create_server((name, PORT), family=family)
                t = socket.create_connection((name, PORT)); t.send(b"1")
                print(s.accept()[0].recv(9))
                u = socket.socket(family, socket.SOCK_DGRAM); u.bind((name, PORT))
                t = socket.socket(family, socket.SOCK_DGRAM); t.sendto(b"1", (name, PORT))
                print(u.recv(9))
                t.sendto(b"1", (name, PORT + 1))
        """
        self.on_links(["a,b"], {"a": text, "b": "time.sleep(1)"})
        # a server of the same port at another address
        self.on_links(["a,b"], {
            "b": 's = udp("127.0.0.7", PORT); time.sleep(3)',
            "a": 'time.sleep(1); udp().sendto(b"1", ("127.0.0.8", PORT))'})

    def test_errors_are_those_of_the_call(self):
        text = """
            s = socket.socket(socket.AF_INET6)
            print(errno.errorcode[s.connect_ex(("::1", PORT))])
            s = socket.socket(socket.AF_INET6, socket.SOCK_DGRAM)
            try: s.sendto(b"1" * 70000, ("::1", PORT))
            except OSError as error: print(errno.errorcode[error.errno])
        """
        out = self.on_links(["a,b"], {"a": text})
        self.assertEqual(out["a"], [["ECONNREFUSED"], ["EMSGSIZE"]])


if __name__ == "__main__":
    unittest.main()
