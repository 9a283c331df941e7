"""Datagrams between nodes with --link. All times are computed here: a program starts at 0, and a
sleep of a second ends 1 ns after it."""
import pathlib
import unittest

from links import MILLI, PORT, SECOND, LinkTest
from runs import TKRUN

# sends some datagrams with their numbers, and waits before each
SEND_SOME = "s = udp()\nfor i in range({0}): time.sleep({1}); s.sendto(b'%d' % i, AT_B)\n"
RECEIVE_SOME = """
    s = udp(*AT_B)
    s.settimeout({0})
    try:
        while True: show(s.recv(1 << 16).decode())
    except TimeoutError: pass
"""


def arrivals(lines):
    """The numbers that have arrived, and the times without the ns by which sleeps are late."""
    return [line[0] for line in lines], [line[1] // 1000 * 1000 for line in lines]


class Datagrams(LinkTest):
    def test_both_directions(self):
        # 10 ms there and 30 ms back
        out = self.on_links(["a,b,delay=10ms", "b,a,delay=0.03"], {
            "b": """
                s = udp(*AT_B)
                for _ in range(2):
                    text, name = s.recvfrom(10); show(text.decode()); s.sendto(text, name)
                """,
            "a": """
                time.sleep(1)
                s = udp(); s.sendto(b"one", AT_B); show(s.recv(10).decode())
                s = udp(); s.connect(AT_B); s.send(b"two"); show(s.recv(10).decode())
                """})
        first = SECOND + 1
        self.assertEqual(out["b"], [["one", first + 10 * MILLI], ["two", first + 50 * MILLI]])
        self.assertEqual(out["a"], [["one", first + 40 * MILLI], ["two", first + 80 * MILLI]])

    def test_the_other_direction_has_the_values_too(self):
        out = self.on_links(["b,a,delay=250us"], {
            "b": RECEIVE_SOME.format(2), "a": "time.sleep(1); udp().sendto(b'1', AT_B)"})
        self.assertEqual(out["b"], [[1, SECOND + 1 + 250000]])

    def test_waits_for_a_datagram(self):
        # each begins when the datagram before has come, and ends at its time or at an arrival
        waits = ["s.recv(9)", "s.recvmsg(9)", "s.recv_into(bytearray(9))", "os.read(s.fileno(), 9)",
                 "(select.select([s], [], [], 9), s.recv(9))",
                 "(poll.poll(9000), s.recv(9))", "(epoll.poll(9), s.recv(9))",
                 "(select.select([s], [], [], 0.25), show('none'), s.recv(9))",
                 "(poll.poll(250), show('none'), s.recv(9))",
                 "(epoll.poll(0.25), show('none'), s.recv(9))"]
        body = "\n    ".join(f"{wait}; show('got')" for wait in waits)
        out = self.on_links(["a,b,delay=1"], {
            "b": f"""
    s = udp(*AT_B)
    poll = select.poll(); poll.register(s, select.POLLIN)
    epoll = select.epoll(); epoll.register(s, select.EPOLLIN)
    {body}
    """, "a": SEND_SOME.format(len(waits), 1)})
        expected = []
        for i in range(len(waits)):
            if "none" in waits[i]:
                expected.append(["none", (i + 1) * SECOND + 250 * MILLI])
            expected.append(["got", (i + 2) * SECOND])
        self.assertEqual([[word, time // 1000 * 1000] for word, time in out["b"]], expected)

    def test_only_the_linked_nodes_have_delays(self):
        out = self.on_links(["a,b,delay=1"], {
            "b": RECEIVE_SOME.format(3),
            "a": """
                time.sleep(1)
                own = udp(A, PORT + 1); udp().sendto(b"own", (A, PORT + 1))
                show(own.recv(9).decode())
                own = udp(HOST, 0); udp().sendto(b"host", own.getsockname())
                show(own.recv(9).decode())
                """,
            "c": "time.sleep(1); udp().sendto(b'c', AT_B)"},
            before=f"python3 -c \"import socket, time; time.sleep(0.5); s = socket.socket("
                   f"{self.family}, socket.SOCK_DGRAM); s.sendto(b'p', "
                   f"('{self.addresses['b']}', {PORT}))\" &")
        self.assertEqual(out["b"], [["p", SECOND // 2 + 1], ["c", SECOND + 1]])
        self.assertEqual(out["a"], [["own", SECOND + 1], ["host", SECOND + 1]])

    def test_jitter(self):
        def run(options):
            out = self.on_links([f"a,b,delay=10ms,jitter=5ms{options}"], {
                "a": SEND_SOME.format(40, 0.001), "b": RECEIVE_SOME.format(1)})
            return [(number, time - (number + 1) * MILLI) for number, time in out["b"]]
        first, again, other = run(""), run(""), run(",seed=1")
        self.assertEqual(first, again)
        self.assertNotEqual(first, other)
        for lines in (first, other):
            delays = [delay for _, delay in lines]
            self.assertEqual(sorted(number for number, _ in lines), list(range(40)))
            self.assertTrue(10 * MILLI <= min(delays) < 11 * MILLI, delays)
            self.assertTrue(14 * MILLI <= max(delays) < 15 * MILLI + 100, delays)
            self.assertNotEqual(lines, sorted(lines))  # some overtake others

    def test_loss(self):
        def run(options, delay="1ms"):
            out = self.on_links([f"a,b,delay={delay}{options}"], {
                "a": SEND_SOME.format(100, 0.001), "b": RECEIVE_SOME.format(1)})
            return arrivals(out["b"])[0]
        half = run(",loss=0.5")
        self.assertTrue(30 < len(half) < 70, half)
        for _ in range(3):
            self.assertEqual(run(",loss=0.5"), half)
        self.assertEqual(run(",loss=0.5", "7ms"), half)
        self.assertNotEqual(run(",loss=0.5,seed=9"), half)
        self.assertLess(len(run(",loss=0.9")), 20)
        self.assertEqual(run(",loss=1"), [])
        self.assertEqual(run(",loss=0"), list(range(100)))

    def test_links_lose_by_their_own_numbers(self):
        out = self.on_links(["a,b,loss=0.5", "a,c,loss=0.5"], {
            "a": """
                s = udp()
                for i in range(50):
                    time.sleep(0.001)
                    for node in (B, C): s.sendto(b"%d" % i, (node, PORT))
                """,
            "b": RECEIVE_SOME.format(1), "c": RECEIVE_SOME.format(1).replace("*AT_B", "C, PORT")})
        one, other = arrivals(out["b"])[0], arrivals(out["c"])[0]
        self.assertTrue(10 < len(one) < 40 and 10 < len(other) < 40, out)
        self.assertNotEqual(one, other)

    def test_directions_lose_by_their_own_numbers(self):
        echo = """
            s = udp(*AT_B); s.settimeout(1)
            try:
                while True:
                    text, name = s.recvfrom(9); show(text.decode()); s.sendto(text, name)
            except TimeoutError: pass
            """
        ask = """
            s = udp(); s.settimeout(1)
            for i in range(60): time.sleep(0.001); s.sendto(b"%d" % i, AT_B)
            try:
                while True: show(s.recv(9).decode())
            except TimeoutError: pass
            """
        out = self.on_links(["a,b,loss=0.5"], {"a": ask, "b": echo})
        there, back = arrivals(out["b"])[0], arrivals(out["a"])[0]
        self.assertTrue(set(back) < set(there))
        self.assertTrue(0 < len(back) < len(there) < 60, (there, back))

    def test_rate(self):
        # 1,250 bytes at 1 Mbit/s take 10 ms each; two of three thirds of a ns are kept
        def run(options, size, count):
            out = self.on_links([f"a,b,delay=1ms,{options}"], {
                "a": f"time.sleep(1)\ns = udp()\n"
                     f"for i in range({count}): s.sendto(b'%0{size}d' % i, AT_B)",
                "b": RECEIVE_SOME.format(2)})
            return [[number, time - SECOND - 1 - MILLI] for number, time in out["b"]]
        self.assertEqual(run("rate=1M", 1250, 5), [[i, 10 * MILLI * (i + 1)] for i in range(5)])
        self.assertEqual(run("rate=3G", 1, 7), [[i, 8 * (i + 1) // 3] for i in range(7)])
        # one is on its way, 2,500 bytes wait, and one more comes while no more than that wait
        self.assertEqual(run("rate=1M,queue=2500", 1250, 9),
                         [[i, 10 * MILLI * (i + 1)] for i in range(3)])
        self.assertEqual(run("rate=1M,queue=2499", 1250, 9),
                         [[i, 10 * MILLI * (i + 1)] for i in range(2)])
        self.assertEqual(run("rate=1M,queue=0", 1250, 9), [[0, 10 * MILLI]])

    def test_the_queue_becomes_empty(self):
        out = self.on_links(["a,b,rate=1M,queue=0"], {
            "a": "s = udp()\nfor i in range(6): time.sleep(0.006); s.sendto(b'%01250d' % i, AT_B)",
            "b": RECEIVE_SOME.format(2)})
        self.assertEqual(arrivals(out["b"]), ([0, 2, 4], [16 * MILLI, 28 * MILLI, 40 * MILLI]))

    def test_partition_and_heal(self):
        programs = {"a": SEND_SOME.format(9, 1) + "show('sent')", "b": RECEIVE_SOME.format(5)}
        plan = self.file("plan", "at 2.5 partition a b\nat 5.5 heal b a\nat 6.95 partition b a\n"
                                 "at 7.5 heal a b\n")
        by_plan = self.on_links(["a,b,delay=100ms"], programs, "--plan", plan)
        # what was sent before the cut arrives
        kept = [0, 1, 5, 7, 8]
        self.assertEqual(arrivals(by_plan["b"]),
                         (kept, [(i + 1) * SECOND + 100 * MILLI for i in kept]))
        plan = self.file("plan", "at 6.05 partition a b\nat 6.07 heal a b\n")
        by_ctl = self.on_links(["a,b,delay=100ms"], programs, "--plan", plan, before=(
            f"(sleep 2.5; {TKRUN} ctl partition a b; sleep 1; {TKRUN} ctl heal a b) &"))
        self.assertEqual(arrivals(by_ctl["b"])[0], [0, 1, 3, 4, 5, 6, 7, 8])

    def test_the_order_of_links_at_one_time(self):
        send = "time.sleep(1); udp().sendto(b'{}', (C, PORT))"
        for names in ("ab", "ba"):
            out = self.on_links([f"{name},c,delay=10ms" for name in names], {
                "a": send.format("a"), "b": send.format("b"),
                "c": "s = udp(C, PORT)\nfor i in range(2): show(s.recv(9).decode())"})
            self.assertEqual(out["c"], [[name, SECOND + 1 + 10 * MILLI] for name in names])

    def test_the_most_that_is_on_its_way(self):
        # 16,384 datagrams; some more wait in a queue until the first ones have arrived
        queue = int(pathlib.Path("/proc/sys/net/unix/max_dgram_qlen").read_text())
        out = self.on_links(["a,b,delay=1"], {
            "b": f"s = udp(*AT_B); open('{self.folder}/pid', 'w').write(str(os.getpid()))\n"
                 "time.sleep(9)",
            "a": f"""
                time.sleep(1); s = udp()
                for i in range(16384): s.sendto(b'', AT_B)
                show()
                for i in range({queue} + 9): s.sendto(b'', AT_B)
                show(); os.kill(int(open('{self.folder}/pid').read()), signal.SIGKILL)
                """})
        self.assertEqual(out["a"], [[SECOND + 1], [2 * SECOND + 1]])

    def test_a_partition_cuts_both_directions_of_one_link(self):
        out = self.on_links(["a,b", "b,a,delay=1ms", "b,c"], {
            "a": "s = udp(A, PORT); s.settimeout(9); s.sendto(b'1', AT_B)\n"
                 "try: show(s.recv(9))\nexcept TimeoutError: show('none')",
            "b": "time.sleep(1); s = udp(*AT_B); s.sendto(b'1', (A, PORT))\n"
                 "s.sendto(b'2', (C, PORT)); s.settimeout(5)\n"
                 "try: show(s.recv(9))\nexcept TimeoutError: show('none')",
            "c": "show(udp(C, PORT).recv(9).decode())"},
            before=f"{TKRUN} ctl partition b a")
        self.assertEqual(out, {"a": [["none", 9 * SECOND + 1]], "b": [["none", 6 * SECOND + 2]],
                               "c": [[2, SECOND + 1]]})

    def test_a_port_that_nobody_has(self):
        # the kernel's error comes when the datagram arrives; the next one is sent after it
        out = self.on_links(["a,b,delay=1"], {"a": """
            s = udp(); s.connect(AT_B); s.send(b"1")
            try: s.recv(9)
            except OSError as error: show(errno.errorcode[error.errno])
            s.send(b"2"); time.sleep(2)
            try: s.send(b"3")
            except OSError as error: show(errno.errorcode[error.errno])
            s.send(b"4"); s.close(); time.sleep(2)
            s = udp(A, PORT + 1); s.sendto(b"5", AT_B); s.sendto(b"6", (B, PORT + 1)); time.sleep(9)
            """, "b": "time.sleep(5); s = udp(B, PORT + 1); show(s.recv(9).decode())"})
        self.assertEqual(out["a"], [["ECONNREFUSED", SECOND], ["ECONNREFUSED", 3 * SECOND + 1]])
        self.assertEqual(out["b"], [[6, 6 * SECOND + 2]])


if __name__ == "__main__":
    unittest.main()
