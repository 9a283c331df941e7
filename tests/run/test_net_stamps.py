"""The stamps of packets from another node, with --link and --stamps: the receiver's own time of
their arrival. And the stamps of packets to another node: the sender's own time, when it sends."""
import textwrap
import unittest

from links import MILLI, PRELUDE, SECOND, START, LinkTest, options_of
from runs import STILL

AHEAD, PPM = 7, 100
# asks for stamps by a number, and prints REALTIME and the stamp of each packet in ns
RECEIVE = """
    s = udp(*AT_B); s.setsockopt(socket.SOL_SOCKET, {0}, {1})
    def ns(seconds, part): return (seconds - 2000) * 10**9 + part * {2}
    for wait in {3}:
        time.sleep(wait)
        text, parts, *_ = s.recvmsg(9, 500)
        for level, kind, bytes in parts:
            print(kind, ns(*struct.unpack("qq", bytes[:16])), len(bytes))
        show()
"""


class Stamps(LinkTest):
    def make_options(self):
        return [*STILL, "--start", START, "--stamps",
                "--node", f"a,address={self.addresses['a']}",
                "--node", f"b,address={self.addresses['b']},error-ppm={PPM},ahead={AHEAD}"]

    def at_b(self, common):
        """What REALTIME of b is at a time of the common counter, after the start of a, in ns."""
        return common * (10**6 + PPM) // 10**6 + AHEAD * SECOND

    def stamps(self, number, value, unit):
        """The lines of a receiver that gets three packets, of which it reads the last two late."""
        out = self.on_links(["a,b,delay=20ms"], {
            "a": "s = udp()\nfor i in range(3): time.sleep(1); s.sendto(b'%d' % i, AT_B)",
            "b": RECEIVE.format(number, value, unit, (0, 5, 0.001))})
        return out["b"]

    def test_each_kind(self):
        arrivals = [self.at_b((i + 1) * (SECOND + 1) + 20 * MILLI) for i in range(3)]
        for number, value, unit, size in [(35, 1, 1, 16), (29, 1, 1000, 16), (37, 0x18, 1, 48)]:
            with self.subTest(option=number):
                lines = self.stamps(number, value, unit)
                self.assertEqual(lines[::2], [[number, time // unit * unit, size]
                                              for time in arrivals])
                self.assertEqual(lines[1][0], arrivals[0])

    def test_a_step_of_the_receiver(self):
        # as before, a packet is as old after a step as it was: the clocks say so
        out = self.on_links(["a,b,delay=20ms"], {
            "a": "time.sleep(1); udp().sendto(b'1', AT_B)",
            "b": RECEIVE.format(35, 1, 1, "(3,)").replace(
                "time.sleep(wait)", "time.sleep(wait); time.clock_settime(0, 3000)")})
        # b has slept for 3 s by its clock, which has moved by 3 s at a common time before
        age = 3 * SECOND + 1 - (self.at_b(SECOND + 1 + 20 * MILLI) - AHEAD * SECOND)
        self.assertLessEqual(abs(out["b"][0][1] - (1000 * SECOND - age)), 1)

    def test_what_is_refused(self):
        text = """
            s = udp(*AT_B)
            for number, value in [(37, 0x19), (37, 0x118), (37, 0x218), (37, 0x50), (37, 1 << 15),
                                  (37, 1 << 12), (37, 1 << 13), (63, 1), (64, 1), (65, 0x18),
                                  (37, 0x18), (37, 0x1a), (37, 0xc9a), (37, 0)]:
                try: s.setsockopt(socket.SOL_SOCKET, number, value); print("takes", number, value)
                except OSError as error: print(errno.errorcode[error.errno], number)
            """
        out = self.on_links(["a,b"], {"b": text})
        self.assertEqual([line[0] for line in out["b"]], ["ENOPROTOOPT"] * 10 + ["takes"] * 4)
        self.options = options_of(self.addresses)  # without --stamps
        out = self.on_links(["a,b"], {"b": text})
        self.assertEqual([line[0] for line in out["b"]], ["ENOPROTOOPT"] * 14)

    def test_many_moves_since_the_arrival(self):
        # the counter has moved 5,000 times since then, and tkrun knows when 4,095 of the moves were
        out = self.on_links(["a,b,delay=20ms"], {
            "a": "time.sleep(1); udp().sendto(b'1', AT_B)",
            "b": RECEIVE.format(35, 1, 1, "(3,)").replace(
                "time.sleep(wait)",
                "time.sleep(2)\n        for i in range(5000): time.sleep(1e-6)")})
        stamp, now = out["b"][0][1], out["b"][1][0]
        self.assertTrue(4095000 <= now - stamp < 5000 * 1001, (now, stamp))


TEXTS = ["0", "11", "222"]
# asks for stamps of what is sent, and prints for each of them: the number of a datagram (OPT_ID),
# REALTIME in ns, the error that comes with it (ENOMSG), and the last bytes of the copy
SEND = """
    def ns(seconds, part): return (seconds - 2000) * 10**9 + part
    def ask(s, flags=0x9a): s.setsockopt(socket.SOL_SOCKET, 37, flags)
    def stamps(s):
        poll = select.poll(); poll.register(s, 0)
        while poll.poll(0):
            text, parts, *_ = s.recvmsg(2000, 500, socket.MSG_ERRQUEUE)
            parts = {kind: bytes for level, kind, bytes in parts}
            why = parts.get(11) or parts[25]  # IP_RECVERR, or IPV6_RECVERR
            error, number = struct.unpack("I8xI", why[:16])
            print(number, ns(*struct.unpack("qq", parts[37][:16])), errno.errorcode[error],
                  text[-3:].decode() if len(text) > 28 else "none")
"""
RECEIVE_ALL = """
    s = udp(*AT_B)
    for i in range(3): print(s.recv(9).decode())
    s.settimeout(10)
    try: s.recv(9)
    except TimeoutError: print("no more")
"""


class StampsOfWhatIsSent(LinkTest):
    prelude = PRELUDE + textwrap.dedent(SEND)
    more_calls = [("socket.socket(socket.AF_INET6, socket.SOCK_DGRAM)",
                   "s.sendto(t, ('::ffff:' + B, PORT))")]

    def make_options(self):
        return [*STILL, "--start", START, "--stamps",
                "--node", f"a,address={self.addresses['a']},error-ppm={PPM},ahead={AHEAD}",
                "--node", f"b,address={self.addresses['b']}"]

    def sent(self, text, receiver=RECEIVE_ALL, link="a,b,delay=20ms"):
        """What a sender prints, whose datagrams arrive once."""
        out = self.on_links([link], {"a": text, "b": receiver})
        if receiver == RECEIVE_ALL:
            self.assertEqual(out["b"], [[int(text)] for text in TEXTS] + [["no", "more"]])
        return out["a"]

    def now(self, *spans):
        """The time of a when it has slept for some spans, in s."""
        return AHEAD * SECOND + sum(span * SECOND + 1 for span in spans)

    def expected(self, texts=TEXTS, first=0):
        """One stamp in each second."""
        return [[first + i, self.now(*[1] * (i + 1)), "ENOMSG",
                 int(text) if text.isdigit() else text] for i, text in enumerate(texts)]

    # the last three bytes of the copy: a short datagram comes after the header of UDP, with its sum
    SENDS = "for t in (b'000', b'111', b'222'): time.sleep(1); "

    def test_each_call(self):
        for make, send in [
                ("udp()", "s.sendto(t, AT_B)"), ("udp()", "s.sendmsg([t[:1], t[1:]], [], 0, AT_B)"),
                ("udp(); s.connect(AT_B)", "s.send(t)"),
                ("udp(); s.connect(AT_B)", "os.write(s.fileno(), t)"),
                ("udp(A, PORT)", "s.sendto(t, AT_B)"), *self.more_calls]:
            for when in ["", "time.sleep(7)"]:
                with self.subTest(make=make, send=send, when=when):
                    out = self.on_links(["a,b,delay=20ms"], {
                        "a": f"s = {make}; ask(s)\n{self.SENDS}{send}\n{when}\nstamps(s)\n"
                             "time.sleep(1); stamps(s)",
                        "b": RECEIVE_ALL})
                    self.assertEqual(out["a"], self.expected(["000", "111", "222"]))
                    self.assertEqual(out["b"], [[0], [111], [222], ["no", "more"]])

    def test_the_stamp_is_there_at_once(self):
        # as ptp4l looks for it: within a millisecond, although the datagram takes 20 ms
        out = self.on_links(["a,b,delay=20ms"], {
            "a": "s = udp(); ask(s); time.sleep(1); s.sendto(b'000', AT_B)\n"
                 "poll = select.poll(); poll.register(s, select.POLLPRI)\n"
                 "print(poll.poll(1)[0][1] == select.POLLERR); show(); stamps(s)\n"
                 "print(poll.poll(50))"})
        self.assertEqual(out["a"], [["True"], [self.now(1)], self.expected(["000"])[0], ["[]"]])

    def test_what_the_link_loses_is_stamped(self):
        out = self.on_links(["a,b,loss=1"], {
            "a": f"s = udp(); ask(s)\n{self.SENDS}s.sendto(t, AT_B)\nstamps(s)"})
        self.assertEqual(out["a"], self.expected(["000", "111", "222"]))

    def test_options_of_stamps(self):
        # no copy; and then no stamp
        out = self.on_links(["a,b"], {
            "a": f"s = udp(); ask(s, 0x89a)\n{self.SENDS}s.sendto(t, AT_B)\nstamps(s)\n"
                 "ask(s, 0x18); s.sendto(b'333', AT_B); time.sleep(1); stamps(s)"})
        self.assertEqual(out["a"], self.expected(["none"] * 3))

    def test_a_datagram_that_asks_itself(self):
        ask = "[(socket.SOL_SOCKET, 37, struct.pack('I', {}))]"
        out = self.on_links(["a,b,delay=20ms"], {
            "a": "s = udp(); ask(s, 0x98); time.sleep(1)\n"
                 f"s.sendmsg([b'000'], {ask.format(2)}, 0, AT_B); s.sendto(b'111', AT_B)\n"
                 f"ask(s); s.sendmsg([b'222'], {ask.format(0)}, 0, AT_B); time.sleep(1); stamps(s)",
            "b": RECEIVE_ALL})
        self.assertEqual(out["a"], self.expected(["000"]))
        self.assertEqual(out["b"], [[0], [111], [222], ["no", "more"]])

    def test_bytes_of_a_connection(self):
        out = self.on_links(["a,b,delay=20ms"], {
            "a": "time.sleep(1); s = socket.create_connection(AT_B); ask(s, 0x89a); start = now()\n"
                 "for t in (b'000', b'111'): s.send(t); print(now()); stamps(s); time.sleep(1)",
            "b": "s = server(AT_B).accept()[0]\nwhile s.recv(9): pass"})
        times = out["a"][::2]
        self.assertEqual(out["a"][1::2], [[2, *times[0], "ENOMSG", "none"],
                                          [5, *times[1], "ENOMSG", "none"]])

    def test_within_a_node_and_without_links(self):
        text = (f"s = udp(); r = udp(A, PORT); ask(s)\n{self.SENDS}s.sendto(t, (A, PORT))\n"
                "stamps(s)\nfor i in range(3): print(r.recv(9).decode())")
        for links in [["a,b"], []]:
            out = self.on_links(links, {"a": text})
            self.assertEqual(out["a"], [*self.expected(["000", "111", "222"]), [0], [111], [222]])

    def test_many_datagrams(self):
        # the sink has no room for all; each of them is stamped
        out = self.on_links(["a,b"], {
            "a": "s = udp(); ask(s, 0x89a); s.setsockopt(socket.SOL_SOCKET, 8, 1 << 22)\n"
                 "for i in range(300): s.sendto(b'0' * 1000, AT_B); stamps(s)"})
        self.assertEqual([line[0] for line in out["a"]], list(range(300)))


if __name__ == "__main__":
    unittest.main()
