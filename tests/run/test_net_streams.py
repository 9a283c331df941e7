"""The bytes of connections of TCP between nodes with --link. All times are computed here: a program
starts at 0, and a sleep of a second ends 1 ns after it."""
import unittest
import zlib

from links import BACK, LINKS, MILLI, NOW, PORT, SECOND, STREAMS, THERE, LinkTest
from runs import CAN_FILTER, CAN_TRACE

WINDOW = 4 << 20  # the most bytes of one direction on their way


class Streams(LinkTest):
    prelude = STREAMS

    def test_a_rate(self):
        # 10 MB at 10 Mbit/s take 8 s, in whatever pieces they are written
        all_at_once = "s.sendall(bytes(10**7))"
        pieces = "for i in range(1000): s.sendall(bytes(10**4))"
        polled = ("s.setblocking(False); p = select.poll(); p.register(s, select.POLLOUT)\n"
                  "left = 10**7\nwhile left: p.poll(); left -= s.send(bytes(min(left, 70000)))")
        for rate, seconds, write in [("10M", 8, all_at_once), ("100M", 0.8, pieces),
                                     ("100M", 0.8, polled)]:
            out = self.on_links([f"a,b,delay=10ms,rate={rate}", "b,a,delay=0"], {
                "b": "listen(); serve()",
                "a": f"time.sleep(1); s = connect()\n{write}\nshow('sent')"})
            span = int(seconds * SECOND)
            self.assertEqual(out["b"][-1], ["end", 10**7, zlib.crc32(bytes(10**7)),
                                            NOW + THERE + span + THERE])
            # back pressure: a part is on its way and in buffers when the last one is written
            sent = out["a"][-1][1] - NOW
            self.assertTrue(span // 10 < sent < span, sent)

    def test_a_queue_that_is_shorter_than_the_delay(self):
        # it never becomes empty: 1 MB at 10 Mbit/s take 0.8 s
        out = self.on_links(["a,b,delay=1,rate=10M,queue=10k"], {
            "b": "listen(); serve()", "a": "time.sleep(1); connect().sendall(bytes(10**6))"})
        self.assertEqual(out["b"][-1][-1], NOW + 2 * SECOND + 800 * MILLI + SECOND)

    def test_the_bytes_are_right(self):
        for link in ["delay=3ms", "delay=1ms,jitter=20ms,rate=1G", "rate=100M,queue=0"]:
            out = self.on_links([f"a,b,{link}"], {"b": "listen(); serve()", "a": """
    time.sleep(1)
    import random, zlib
    s, draw = connect(), random.Random(5)
    data = draw.randbytes(3 * 10**6); view = memoryview(data)
    while view:
        n = draw.randrange(1, 100000); s.sendall(view[:n]); view = view[n:]
        if draw.random() < 0.2: time.sleep(0.002)
    print("sum", zlib.crc32(data))
    """})
            self.assertEqual(out["b"][-1][1:3], [3 * 10**6, out["a"][-1][1]])

    def test_a_rate_that_several_streams_share(self):
        # each gets its part: all of 4 MB end in the last tenth of 3.2 s
        out = self.on_links(["a,b,rate=10M,queue=20k"], {
            "b": """
    listen()
    import threading
    all = [threading.Thread(target=serve, args=("%d " % i,)) for i in range(4)]
    for one in all: one.start()
    for one in all: one.join()
    """, "a": """
    time.sleep(1)
    all = [connect() for _ in range(4)]
    for _ in range(4):
        if not os.fork(): all[_].sendall(bytes(10**6)); os._exit(0)
    for s in all: s.close()
    for s in all: os.wait()
    """})
        ends = sorted(line[-1] - NOW for line in out["b"] if line[1] == "end")
        self.assertEqual(ends[-1], 32 * SECOND // 10)
        self.assertEqual(len(ends), 4)
        self.assertGreater(ends[0], 28 * SECOND // 10)

    def test_a_window(self):
        # without a rate, 4 MiB are on their way at once
        out = self.on_links(["a,b,delay=1"], {
            "b": "listen(); serve()",
            "a": f"time.sleep(1); s = connect(); s.sendall(bytes(3 * {WINDOW})); s.close()"})
        self.assertEqual(out["b"][-1][-1], NOW + 2 * SECOND + 3 * SECOND)

    def test_a_receiver_that_does_not_read(self):
        out = self.on_links(["a,b,delay=1ms"], {
            "b": "l = server(AT_B); s = l.accept()[0]; time.sleep(100)\n"
                 "total = 0\nwhile n := len(s.recv(1 << 20)): total += n\nshow(total)",
            "a": "time.sleep(1); s = connect(); s.sendall(bytes(3 * 10**7)); show('sent')"})
        self.assertEqual(out["b"][0][0], 3 * 10**7)
        self.assertGreater(out["a"][-1][-1], 100 * SECOND)

    def test_a_partition_holds_the_bytes(self):
        plan = self.file("plan", "at 2 partition a b\nat 7 heal a b\n")
        out = self.on_links(LINKS, {
            "b": "listen(); serve()",
            "a": "time.sleep(1); s = connect(); time.sleep(0.955); s.send(b'1'); time.sleep(1)\n"
                 "s.send(b'2'); s.close(); time.sleep(9)"}, "--plan", plan)
        first = NOW + THERE + BACK + 955 * MILLI + 1 + THERE
        self.assertGreater(first, 2 * SECOND)
        self.assertEqual([line[-1] for line in out["b"][1:]], [first, 7 * SECOND + THERE])
        self.assertEqual(out["b"][2][1], 2)

    def test_a_close_keeps_its_order(self):
        # also after bytes that wait for the rate: 100,000 bytes at 1 Mbit/s
        out = self.on_links(["a,b,delay=10ms,rate=1M", "b,a,delay=30ms"], {
            "b": "listen(); serve(); serve(); serve()",
            "a": """
    time.sleep(1)
    connect().close()
    s = connect(); s.send(bytes(100000)); s.close(); show()
    if not os.fork(): s = connect(); s.send(b"1"); os.kill(os.getpid(), signal.SIGKILL)
    """})
        step = THERE + BACK
        second, third = NOW + step, NOW + 2 * step + 800 * MILLI
        self.assertEqual([line[-1] for line in out["b"]], [
            # nothing is between the packets of the first connection
            second + THERE, second + THERE,
            # 1,448 bytes come first; the third connection waits until all have gone
            second + step + THERE, second + step + 1448 * 8000 + THERE, third + THERE,
            third + step + THERE, third + step + 8000 + THERE, third + step + 8000 + THERE])

    def test_one_end_goes_on(self):
        out = self.on_links(LINKS, {
            "b": "l = server(AT_B); s = l.accept()[0]; s.shutdown(socket.SHUT_WR)\n"
                 "while data := s.recv(9): show(data.decode())\nshow('end')",
            "a": "time.sleep(1); s = connect(); show(s.recv(9)); time.sleep(1); s.send(b'on'); "
                           "time.sleep(1); s.close()"})
        connected = NOW + THERE + BACK
        self.assertEqual(out["a"][-1], ["b''", connected + THERE + BACK])
        connected += THERE + BACK
        self.assertEqual(out["b"], [["on", connected + SECOND + 1 + THERE],
                                    ["end", connected + 2 * SECOND + 2 + THERE]])

    def test_resets(self):
        wait = """
try: s.recv(9)
except OSError as error: show(errno.errorcode[error.errno])
"""
        abort = "reset(s)"
        accept = "l = server(AT_B); s = l.accept()[0]"
        connected = NOW + THERE + BACK
        out = self.on_links(LINKS, {"b": accept + wait,
                                    "a": f"time.sleep(1); s = connect(); {abort}"})
        self.assertEqual(out["b"], [["ECONNRESET", connected + THERE]])
        out = self.on_links(LINKS, {"b": accept + f"; time.sleep(1); {abort}",
                                    "a": "time.sleep(1); s = connect()" + wait +
                                    "show(s.getsockopt(socket.SOL_SOCKET, socket.SO_ERROR))"})
        reset = connected + THERE + SECOND + BACK
        self.assertEqual([[*line[:-1], line[-1] // 1000] for line in out["a"][1:]],
                         [["ECONNRESET", reset // 1000], [0, reset // 1000]])
        # bytes for a server that has closed all come back as a reset
        out = self.on_links(LINKS, {"b": accept + "; s.close()", "a": """
    time.sleep(1)
    s = connect(); show(s.recv(9)); s.send(b"1"); time.sleep(1)
    try: s.send(b"2")
    except OSError as error: show(errno.errorcode[error.errno])
    """})
        self.assertEqual(out["a"][1:], [["b''", connected + THERE + BACK],
                                        ["EPIPE", connected + THERE + BACK + SECOND + 1]])

    def test_a_reset_is_an_error_of_poll(self):
        out = self.on_links(LINKS, {
            "b": "l = server(AT_B); s = l.accept()[0]; time.sleep(1)\n"
                 "reset(s)",
            "a": """
    time.sleep(1)
    s = connect(); poll = select.poll(); poll.register(s, select.POLLIN)
    show(bool(poll.poll()[0][1] & select.POLLERR))
    show(errno.errorcode[s.getsockopt(socket.SOL_SOCKET, socket.SO_ERROR)])
    """})
        self.assertEqual([line[0] for line in out["a"][1:]], ["True", "ECONNRESET"])

    def test_sendfile_and_splice(self):
        data = self.folder / "data"
        data.write_bytes(bytes(range(256)) * 4000)
        out = self.on_links(["a,b,delay=10ms,rate=100M", "b,a,delay=10ms"], {
            "b": "listen(); serve(); serve()",
            "a": f"""
    time.sleep(1)
    import subprocess, zlib
    file = open("{data}", "rb"); size = 1024000
    print("sum", zlib.crc32(file.read()))
    s = connect(); left = size
    while left: left -= os.sendfile(s.fileno(), file.fileno(), size - left, left)
    s.close(); s = connect(); left = size; ends = os.pipe(); file.seek(0)
    while left:
        n = os.splice(file.fileno(), ends[1], 65536)
        while n: m = os.splice(ends[0], s.fileno(), n); n -= m; left -= m
    s.close()
    """})
        ends = [line for line in out["b"] if line[0] == "end"]
        self.assertEqual([line[1:3] for line in ends], [[1024000, out["a"][0][1]]] * 2)
        # 81.92 ms for the bytes, after 20 ms for the connection
        self.assertEqual(ends[0][-1], NOW + 20 * MILLI + 81920000 + 10 * MILLI)

    def test_a_process_that_is_killed(self):
        out = self.on_links(LINKS, {
            "b": "listen(); serve()",
            "a": "time.sleep(1); s = connect(); s.send(b'123'); time.sleep(5)\n"
                 "os.kill(os.getpid(), signal.SIGKILL)",
            "c": "time.sleep(10); show('goes on')"})
        connected = NOW + THERE + BACK
        self.assertEqual([line[-1] for line in out["b"][1:]],
                         [connected + THERE, connected + 5 * SECOND + 1 + THERE])
        self.assertEqual(out["c"], [["goes", "on", 10 * SECOND + 1]])

    def test_kills_at_any_time(self):
        # 100 clients are killed while they connect and send; what a server gets is a prefix
        out = self.on_links(["a,b,delay=1ms,rate=20M"], {
            "b": """
    import threading
    l = server(AT_B); wrong = []
    def serve(s):
        text = b""
        try:
            while data := s.recv(1 << 16): text += data
        except ConnectionResetError: pass
        if text == b"end": print("wrong", wrong); os._exit(0)
        if text != (bytes(range(256)) * (len(text) // 256 + 1))[:len(text)]: wrong.append(text)
    while True: threading.Thread(target=serve, args=l.accept()[:1]).start()
    """,
            "a": """
    import random
    draw = random.Random(1)
    for i in range(100):
        child = os.fork()
        if not child:
            s = socket.create_connection(AT_B)
            while True: s.sendall(bytes(range(256)) * 20)
        time.sleep(draw.choice([0, 0.0005, 0.001, 0.002, 0.003, 0.004]))
        for _ in range(draw.randrange(10000)): pass
        os.kill(child, signal.SIGKILL); os.waitpid(child, 0)
    time.sleep(1); socket.create_connection(AT_B).sendall(b"end"); time.sleep(1)
    """})
        self.assertEqual(out["b"], [["wrong", "[]"]])

    @unittest.skipUnless(CAN_FILTER and CAN_TRACE, "the kernel lets tkrun trace no program")
    def test_a_program_without_the_library_serves(self):
        # a server needs nothing: it may be one that hasn't loaded the library
        out = self.on_links(LINKS, {
            "b": f"os.execve(sys.executable, ['p', '-c', 'import socket; "
                 f"s = socket.create_server((\"{self.addresses['b']}\", {PORT}), "
                 f"family={self.family}).accept()[0]; "
                 "s.send(s.recv(9))'], {})",
            "a": "time.sleep(1); s = connect(); s.send(b'back'); show(s.recv(9).decode())"},
            says="tkrun: 'python3' (process N) sends to other nodes as if there were no link: it "
                 "hasn't loaded the library\n")
        self.assertEqual(out["a"], [["connected", "True", NOW + THERE + BACK],
                                    ["back", NOW + 2 * (THERE + BACK)]])

    def test_a_record(self):
        self.on_links(LINKS, {"b": "listen(); serve()",
                              "a": "time.sleep(1); s = connect(); s.sendall(bytes(10**6))"},
                      "--check")

    def test_the_same_run_twice(self):
        # two clients at once, with jitter and a rate
        programs = {"b": "listen(); serve(); serve()",
                    "a": "time.sleep(1); s = connect(); s.sendall(bytes(10**6)); s.close()",
                    "c": "time.sleep(1); s = connect(); s.sendall(bytes(10**6)); s.close()"}
        links = ["a,b,delay=1ms,jitter=5ms,rate=50M", "c,b,delay=1ms,jitter=5ms,rate=50M"]
        first = self.on_links(links, programs)
        self.assertEqual(self.on_links(links, programs), first)

    def test_no_file_stays_open(self):
        # of tkrun, which is the parent of the shell: after connections and datagrams of each ending
        plan = self.file("plan", "at 200 partition a b\nat 500 heal a b\n")
        out = self.on_links(["a,b,delay=1ms,loss=0.2", "b,c"], {
            "b": """
    listen(); s = udp(*AT_B)
    for i in range(9):
        c = listener.accept()[0]
        if i % 3: c.recv(9)
        if i % 3 == 2: reset(c)
    time.sleep(9999)
    """, "a": """
    def files():
        with open(f"/proc/{os.getppid()}/stat") as stat: parent = stat.read().split()[3]
        # (tkrun has a file of /proc open now and then)
        return min(len(os.listdir(f"/proc/{parent}/fd")) for _ in range(100))
    time.sleep(1); before = files()
    for i in range(9): s = connect(); s.send(b"1"); s.close()
    for i in range(20): udp().sendto(b"1", AT_B)
    s = udp()
    for i in range(20): s.sendto(b"1", AT_B)
    for i in range(3): connect((B, PORT + 1)); connect_later((B, PORT + 1))
    time.sleep(210 - now() / 1e9)
    connect(); udp().sendto(b"1", AT_B)
    time.sleep(500); print("files", files() - before)
    """}, "--plan", plan)
        self.assertEqual(out["a"][-1], ["files", 0])
        self.assertEqual([line[0] for line in out["a"]].count("ECONNREFUSED"), 6)



if __name__ == "__main__":
    unittest.main()
