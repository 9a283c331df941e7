"""How connections of TCP between nodes with --link are made. All times are computed here: a program
starts at 0, and a sleep of a second ends 1 ns after it."""
import unittest
import zlib

from links import BACK, LINKS, MILLI, NOW, PORT, SECOND, STREAMS, THERE, LinkTest
from runs import TKRUN

# connects, and is interrupted after half a second
INTERRUPTED = """
    import ctypes
    libc = ctypes.CDLL(None, use_errno=True)
    libc.siginterrupt(signal.SIGALRM, 1)
    handler = ctypes.CFUNCTYPE(None, ctypes.c_int)(lambda number: None)
    class Action(ctypes.Structure):
        _fields_ = [("handler", type(handler)), ("rest", ctypes.c_char * 144)]
    action = Action(handler); libc.sigaction(signal.SIGALRM, ctypes.byref(action), None)
    signal.setitimer(signal.ITIMER_REAL, 0.5)
    s = tcp()
    host = socket.inet_pton(FAMILY, B)
    name = struct.pack("!2xH", PORT) + bytes(4 * (":" in B)) + host + bytes(8 - 4 * (":" in B))
    name = struct.pack("H", FAMILY) + name[2:]
    show(libc.connect(s.fileno(), name, len(name)), errno.errorcode[ctypes.get_errno()])
"""


class Connections(LinkTest):
    prelude = STREAMS

    def test_bytes_both_ways(self):
        out = self.on_links(LINKS, {
            "b": "listen(); s = serve(); s.sendall(b'back'); s.close(); show('closed')",
            "a": """
    time.sleep(1)
    s = connect(); show(s.getsockname()[0]); s.sendall(b"one"); time.sleep(1); s.sendall(b"two")
    s.shutdown(socket.SHUT_WR); show(s.recv(9).decode()); show(s.recv(9))
    """})
        connected = NOW + THERE + BACK
        end = connected + SECOND + 1 + THERE
        self.assertEqual(out["b"], [
            ["accepted", "True", self.addresses["a"], connected + THERE],
            ["first", connected + THERE], ["end", 6, zlib.crc32(b"onetwo"), end], ["closed", end]])
        self.assertEqual(out["a"], [
            ["connected", "True", connected], [self.addresses["a"], connected],
            ["back", end + BACK], ["b''", end + BACK]])

    def test_a_socket_that_does_not_block(self):
        out = self.on_links(LINKS, {
            "b": "listen(); serve()",
            "a": """
    time.sleep(1)
    s = connect_later()
    show(s.getpeername()[:2] == AT_B, s.connect_ex(AT_B), errno.errorcode[s.connect_ex(AT_B)])
    s.send(b"123456789")
    """})
        connected = NOW + THERE + BACK
        self.assertEqual(out["a"], [["EINPROGRESS", NOW], ["connected", connected],
                                    ["True", 0, "EISCONN", connected]])
        self.assertEqual(out["b"][1:], [["first", connected + THERE],
                                        ["end", 9, zlib.crc32(b"123456789"), connected + THERE]])

    def test_waits_for_a_connection(self):
        # each way to wait finds out when it is there, and not before
        out = self.on_links(["a,b,delay=1"], {
            "b": "l = server(AT_B)\nfor _ in range(4): l.accept()",
            "a": """
    import asyncio
    def begin():
        s = tcp(); s.setblocking(False)
        show(errno.errorcode[s.connect_ex(AT_B)], errno.errorcode[s.connect_ex(AT_B)])
        return s
    s = begin(); show(*map(len, select.select([], [s], [], 1.5)))
    select.select([], [s], []); show()
    s = begin(); epoll = select.epoll(); epoll.register(s, select.EPOLLOUT | select.EPOLLET)
    show(epoll.poll(1.5)); show(len(epoll.poll()))
    s = socket.create_connection(AT_B, timeout=5); show(s.getpeername()[:2] == AT_B)
    async def main():
        reader, writer = await asyncio.open_connection(*AT_B); show(); writer.close()
    asyncio.run(main())
    """})
        start = out["a"][0][-1]
        rounded = [[*line[:-1], (line[-1] - start) // 1000 * 1000] for line in out["a"]]
        begun = ["EINPROGRESS", "EALREADY"]
        self.assertEqual(rounded, [
            [*begun, 0], [0, 0, 0, 1500 * MILLI], [2 * SECOND],
            [*begun, 2 * SECOND], ["[]", 3500 * MILLI], [1, 4 * SECOND],
            ["True", 6 * SECOND], [8 * SECOND]])

    def test_sockets_of_ipv6_with_addresses_of_ipv4(self):
        out = self.on_links(LINKS, {
            "b": """
    l = socket.socket(socket.AF_INET6)
    l.setsockopt(socket.SOL_SOCKET, socket.SO_REUSEADDR, 1); l.bind(("::", PORT)); l.listen(5)
    s, peer = l.accept(); show(peer[0]); show(s.recv(9).decode())
    """,
            "a": """
    time.sleep(1)
    s = socket.socket(socket.AF_INET6); name = ("::ffff:" + B, PORT, 0, 0)
    s.connect(name); show(s.getpeername() == name, s.getsockname()[0]); s.send(b"six")
    s = socket.socket(socket.AF_INET6); s.setblocking(False)
    show(errno.errorcode[s.connect_ex((name[0], PORT + 1))]); select.select([], [s], [])
    show(errno.errorcode[s.getsockopt(socket.SOL_SOCKET, socket.SO_ERROR)])
    """})
        connected = NOW + THERE + BACK
        self.assertEqual(out["b"], [["::ffff:" + self.addresses["a"], connected + THERE],
                                    ["six", connected + THERE]])
        self.assertEqual(out["a"], [["True", "::ffff:" + self.addresses["a"], connected],
                                    ["EINPROGRESS", connected],
                                    ["ECONNREFUSED", connected + THERE + BACK]])

    def test_the_client_keeps_its_port(self):
        out = self.on_links(LINKS, {
            "b": "l = server(AT_B)\n"
                 "for _ in range(3): name, port, *_ = l.accept()[1]; show(name, port)",
            "a": "time.sleep(1); connect(name=(A, PORT + 2)); connect(name=(ANY, PORT + 3))\n"
                 "s = connect(); show(s.getsockopt(socket.SOL_SOCKET, socket.SO_REUSEADDR))"})
        self.assertEqual([line[0] for line in out["b"]], [self.addresses["a"]] * 3)
        self.assertEqual([line[1] for line in out["b"][:2]], [PORT + 2, PORT + 3])
        self.assertNotIn(out["b"][2][1], [PORT + 2, PORT + 3])
        self.assertEqual([line[0] for line in out["a"]], ["connected"] * 3 + [0])

    def test_connections_within_a_node_have_its_address(self):
        out = self.on_links(["a,b,delay=1"], {"a": """
    own = A, PORT
    server, peer = server(own), udp(*own); time.sleep(1)
    s = connect(own); print(s.getsockname()[0], server.accept()[1][0])
    s = udp(); s.connect(own); s.send(b"1"); print(peer.recvfrom(9)[1][0]); show()
    """})
        own = self.addresses["a"]
        self.assertEqual(out["a"], [["connected", "True", NOW], [own, own], [own], [NOW]])

    def test_a_port_that_nobody_has(self):
        for connect in ("connect", "connect_later"):
            out = self.on_links(LINKS, {"a": f"""
    time.sleep(1)
    s = {connect}(); show(s.getsockopt(socket.SOL_SOCKET, socket.SO_ERROR))
    time.sleep(1); s.setblocking(True)
    try: s.connect(AT_B)
    except OSError as error: show(errno.errorcode[error.errno])
    """})
            refused = NOW + THERE + BACK
            again = refused + SECOND + 1 + THERE + BACK
            self.assertEqual(out["a"][-3:], [["ECONNREFUSED", refused], [0, refused],
                                             ["ECONNREFUSED", again]])

    def test_a_port_that_others_have(self):
        # another node, and the host, listen at the same port
        out = self.on_links(["a,b,delay=1ms", "a,c,delay=1ms"], {
            "c": "l = server((C, PORT)); time.sleep(9)",
            "b": "l = socket.create_server(('127.0.0.1', PORT)); "
                 "m = socket.create_server(('::1', PORT), family=socket.AF_INET6); time.sleep(9)",
            "a": "time.sleep(1); connect(); connect((C, PORT))"})
        self.assertEqual([line[0] for line in out["a"]], ["ECONNREFUSED", "connected"])

    def test_a_partition(self):
        for connect in ("connect", "connect_later"):
            plan = self.file("plan", "at 0.5 partition a b\nat 500 heal a b\n")
            out = self.on_links(LINKS, {"b": "listen(); serve()",
                                        "a": f"time.sleep(1); {connect}()"}, "--plan", plan)
            self.assertEqual(out["a"][-1], ["ETIMEDOUT", NOW + 127 * SECOND])

    def test_the_first_packets_are_sent_again(self):
        # tries at 1, 2, 4, 8 and 16 s; the link is cut for the answer of that at 4 s
        plan = self.file("plan", "at 0.5 partition a b\nat 3.5 heal a b\nat 4.005 partition a b\n"
                                 "at 4.02 heal a b\nat 4.1 partition a b\nat 10 heal a b\n")
        for connect in ("connect", "connect_later"):
            out = self.on_links(LINKS, {
                "b": "listen(); serve()", "a": f"time.sleep(1); {connect}(); time.sleep(9)"},
                                "--plan", plan)
            connected = 16 * SECOND + 1 + THERE + BACK
            self.assertEqual(out["a"][-1], ["connected"] + ["True"] * (connect == "connect") +
                             [connected])
            self.assertEqual(out["b"][0],
                             ["accepted", "True", self.addresses["a"], connected + THERE])

    def test_lost_packets_of_connections(self):
        # each direction loses half of them: a connection takes 1, 3, 7, .. s more for lost ones
        def run(seed):
            out = self.on_links([f"a,b,delay=1ms,loss=0.5,seed={seed}"], {
                "b": "l = server(AT_B)\nwhile True: l.accept()",
                "a": """
    time.sleep(1)
    for _ in range(20):
        start = now(); connect(); show(now() - start)
    """})
            return [line[0] for line in out["a"] if line[0] not in ("connected", "ETIMEDOUT")]
        spans = run(3)
        self.assertEqual(run(3), spans)
        self.assertNotEqual(run(4), spans)
        tries = [(2**i - 1) * SECOND + 2 * MILLI for i in range(7)] + [127 * SECOND]
        self.assertLessEqual(set(spans), set(tries))
        self.assertGreater(len(set(spans)), 2)

    def test_a_signal_before_a_refusal(self):
        # connect was interrupted, so the error comes later
        out = self.on_links(["a,b,delay=1"], {"a": INTERRUPTED + """
    select.select([], [s], [])
    show(errno.errorcode[s.getsockopt(socket.SOL_SOCKET, socket.SO_ERROR)])
    """})
        self.assertEqual([[*line[:-1], line[-1] // 1000] for line in out["a"]],
                         [[-1, "EINTR", 500000], ["ECONNREFUSED", 2000000]])

    def test_a_server_that_ends_before_it_accepts(self):
        # the answer has been sent, but nobody listens when the last packet comes
        for send in ["", "s.send(b'1')"]:
            out = self.on_links(LINKS, {
                "b": "l = server(AT_B); time.sleep(1.02); l.close(); time.sleep(9)",
                "a": f"""
    time.sleep(1); s = connect(); {send}
    try: s.recv(9)
    except OSError as error: show(errno.errorcode[error.errno])
    """})
            self.assertEqual(out["a"], [["connected", "True", NOW + THERE + BACK],
                                        ["ECONNRESET", NOW + 2 * (THERE + BACK)]])

    def test_a_full_backlog(self):
        # the server accepts when it can, and no byte is lost
        out = self.on_links(["a,b,delay=1ms"], {
            "b": """
    l = server(AT_B, backlog=1); time.sleep(3)
    for _ in range(5): s = l.accept()[0]; show(s.recv(9).decode())
    """, "a": "time.sleep(1)\nfor i in range(5): connect().send(b'%d' % i)\ntime.sleep(99)"})
        self.assertEqual(sorted(line[0] for line in out["b"]), list(range(5)))

    def test_a_signal_interrupts_connect(self):
        out = self.on_links(["a,b,delay=1"], {
            "b": "listen(); serve()",
            "a": INTERRUPTED + """
    select.select([], [s], []); show(s.getsockopt(socket.SOL_SOCKET, socket.SO_ERROR))
    s.send(b"x")
    """})
        self.assertEqual([line[:-1] for line in out["a"]], [[-1, "EINTR"], [0]])
        self.assertEqual([line[-1] // 1000 for line in out["a"]], [500000, 2000000])
        self.assertEqual(out["b"][1], ["first", 3 * SECOND])

    def test_only_the_linked_nodes_have_delays(self):
        out = self.on_links(["a,b,delay=1"], {
            "b": "l = server((ANY, PORT))\nfor _ in range(2): l.accept(); show()",
            "c": "time.sleep(1); connect()"},
            before=f"{TKRUN} node b -- python3 -c \"import socket, time; time.sleep(0.5); "
                   f"socket.create_connection(('{self.addresses['b']}', {PORT}))\" &")
        self.assertEqual(out["b"], [[SECOND // 2 + 1], [NOW]])
        self.assertEqual(out["c"], [["connected", "True", NOW]])

    def test_many_connections(self):
        out = self.on_links(["a,b,delay=1"], {
            "b": """
    l = server(AT_B, backlog=4096); all = [l.accept()[0] for _ in range(300)]
    print(sum(int(s.recv(9)) for s in all), now() // 10**6)
    """, "a": """
    time.sleep(1); all = []
    for i in range(300):
        s = tcp(); s.setblocking(False); s.connect_ex(AT_B); all.append(s)
    for i, s in enumerate(all): select.select([], [s], []); s.send(b"%d" % i)
    """})
        self.assertEqual(out["b"], [[sum(range(300)), 4000]])


if __name__ == "__main__":
    unittest.main()
