"""--seed: what programs see of full and partly read pipes and connections (turn_flows.c)."""
import errno
import re
import socket

from links import ADDRESSES, PORT
from runs import STILL, TKRUN, RunTest, call, host_call, program

FLOWS = program("turn_flows")
TOTAL, SPACE, PIPE = 700000, 131072, 65536  # bytes of a run, of a connection of TCP, and of a pipe
SCHEDULES = ["slow_reader", "slow_writer", "both_slow", "close_amid", "shutdown_half", "poll",
             "select", "level", "edge", "both_at_once"]
SEEDS = 3
# a thread has both ends, and knows what the other one has left to read
MODEL = """import fcntl, random, select, socket, struct, sys, termios
SPACE, chosen = {space}, random.Random({seed})
server, client = {addresses}
family = socket.AF_INET6 if ":" in server else socket.AF_INET
listener = socket.create_server((server, 0), family=family)
listener.setsockopt(socket.SOL_SOCKET, socket.SO_RCVBUF, 4096)
out = socket.create_connection((client, listener.getsockname()[1]))
out.setsockopt(socket.SOL_SOCKET, socket.SO_SNDBUF, 4096)
into = listener.accept()[0]
sizes = [s.getsockopt(socket.SOL_SOCKET, n) for s in (out, into)
         for n in (socket.SO_SNDBUF, socket.SO_RCVBUF)]
assert sizes == [2 * SPACE] * 4, sizes
out.setblocking(False); into.setblocking(False)
level, edge = select.epoll(), select.epoll()
level.register(out, select.EPOLLOUT)
edge.register(out, select.EPOLLOUT | select.EPOLLET)
edge.poll(0)
left, was_full = 0, False
def same(found, expected, what):
    if found != expected: sys.exit(f"{{what}}: {{found}} for {{expected}}")
for step in range(400):
    # also sizes after which a quarter is free, or a byte less
    size = chosen.choice([1, 100, 5000, 40000, 131072, 200000,
                          max(1, SPACE - left - SPACE // 4), max(1, SPACE - left - SPACE // 4 + 1)])
    if chosen.random() < 0.5:
        try: sent = out.send(bytes(size))
        except BlockingIOError: sent = 0
        same(sent, min(size, SPACE - left), "send")
        left += sent
    else:
        try: got = len(into.recv(size))
        except BlockingIOError: got = 0
        same(got, min(size, left), "recv")
        left -= got
    same(struct.unpack("i", fcntl.ioctl(into, termios.FIONREAD, bytes(4)))[0], left, "FIONREAD")
    is_roomy = SPACE - left >= SPACE // 4
    poll = select.poll(); poll.register(out, select.POLLOUT | select.POLLIN)
    same(poll.poll(0), [(out.fileno(), select.POLLOUT)] * is_roomy, "poll")
    same(select.select([into], [out], [], 0), ([into] * (left > 0), [out] * is_roomy, []), "select")
    same(level.poll(0), [(out.fileno(), select.EPOLLOUT)] * is_roomy, "epoll")
    was_full |= not is_roomy
    found = edge.poll(0)
    if not is_roomy: same(found, [], "an edge while it is full")
    if is_roomy and was_full:
        same(found, [(out.fileno(), select.EPOLLOUT)], "the edge")
        was_full = False
print("same")
"""

# sends more bytes than there is space for, and a file with them: it comes once
FILES = """import socket, threading
a, b = socket.socketpair()
def send(): print(socket.send_fds(a, [bytes(500000)], [0]))
thread = threading.Thread(target=send); thread.start()
bytes_read = files = 0
while bytes_read < 500000:
    data, there, *_ = socket.recv_fds(b, 10000, 9)
    bytes_read += len(data); files += len(there)
thread.join(); print(bytes_read, files)
"""
# waits for space in spans that end at all parts of a second
SPANS = """import select, socket, time
listener = socket.create_server(("127.0.0.1", 0))
out = socket.create_connection(listener.getsockname()); into = listener.accept()[0]
out.setblocking(False)
try:
    while True: out.send(bytes(1 << 16))
except BlockingIOError: pass
poll = select.poll(); poll.register(out, select.POLLOUT)
for _ in range(30):
    start = time.monotonic_ns()
    assert not poll.poll(40)
    assert 4 * 10**7 <= time.monotonic_ns() - start < 4 * 10**7 + 1000
"""


class Flows(RunTest):
    def flow(self, schedule, kind, seed):
        log = self.folder / "log"
        self.run_on(*STILL, "--seed", seed, "--", FLOWS, log, schedule, kind)
        text = log.read_text()
        log.unlink()
        return text

    def over_link(self, schedule, seed):
        """The events and the records of two processes on two nodes."""
        a, b = ADDRESSES["a"], ADDRESSES["b"]
        words = (f"{TKRUN} node b -- {FLOWS} log {schedule} reads {b} {PORT} & R=$!; sleep 1; "
                 f"{TKRUN} node a -- {FLOWS} log {schedule} writes {b} {PORT} & wait $R $!")
        folder = self.folder / "run"
        folder.mkdir()
        run = call([TKRUN, "--quiet", *STILL, "--start", "5", "--seed", str(seed), "--record", "r",
                    "--check", "--node", f"a,address={a}", "--node", f"b,address={b},error-ppm=9",
                    "--link", "a,b,delay=3ms,jitter=2ms,rate=90M", "--link", "b,a,delay=1ms",
                    "--", "sh", "-c", words], cwd=folder)
        self.assertEqual((run.returncode, run.stderr), (0, ""))
        texts = {path.name: path.read_text() for path in sorted(folder.iterdir())}
        for path in folder.iterdir():
            path.unlink()
        folder.rmdir()
        return texts

    def check_text(self, text, schedule, space, most):
        """What must hold for each seed. At most so much is written that nobody reads."""
        self.assertNotIn("wrong", text)
        reads = [tuple(map(int, found))
                 for found in re.findall(r"read (-?\d+) (\d+), left (\d+)", text)]
        self.assertTrue(all(left <= space for _, _, left in reads))
        written = sum(int(size) for size in re.findall(r"write (\d+)", text))
        read = sum(size for size, _, _ in reads)
        if schedule == "close_amid":
            self.assertTrue(300000 <= read <= written <= read + most, (read, written))
            return
        self.assertEqual((read, written), (TOTAL, TOTAL))
        self.assertEqual(reads[-1], (0, 0, 0))
        if "reply" in text:  # in ten parts, for which one call waits
            self.assertEqual((text.count("reply 100\n"), text.count("got 1000\n"),
                              text.count("then 0\n")), (10, 1, 1))

    def check_kind(self, kind, space):
        texts = []
        for schedule in SCHEDULES:
            for seed in range(SEEDS):
                with self.subTest(schedule=schedule, seed=seed):
                    texts.append(self.flow(schedule, kind, seed))
                    self.check_text(texts[-1], schedule, space, space)
                    self.assertEqual(self.flow(schedule, kind, seed), texts[-1])
        # most seeds make another order
        self.assertGreater(len(set(texts)), 2 * len(SCHEDULES))
        return texts

    def test_a_pipe(self):
        self.check_kind("pipe", PIPE)

    def test_a_connection_of_af_unix(self):
        self.check_kind("unix", 10**6)

    def test_a_connection_of_tcp(self):
        texts = self.check_kind("tcp", SPACE)
        # a writer that doesn't block finds it full, and is told when it isn't any more
        for wait, answer in [("poll", 1004), ("select", 1001), ("level", 1004), ("edge", 1004)]:
            text = texts[SCHEDULES.index(wait) * SEEDS]
            self.assertIn(f"write -1 {errno.EAGAIN}, events 0", text)
            self.assertEqual({int(found) for found in re.findall("writable (.*)", text)}, {answer})

    def test_a_connection_over_a_link(self):
        for schedule in ["slow_reader", "both_slow", "close_amid", "shutdown_half", "edge"]:
            with self.subTest(schedule):
                first = self.over_link(schedule, 1)
                self.check_text(first["log"], schedule, SPACE, TOTAL)
                self.assertEqual(sorted(first), ["log", "r", "r.a", "r.b", "r.nodes"])
                self.assertEqual(self.over_link(schedule, 1), first)

    def test_what_fails_after_the_reader_has_closed(self):
        # as on the host, a write that has written a part returns it, and the next one fails
        for kind, error in [("pipe", errno.EPIPE), ("unix", errno.EPIPE),
                            ("tcp", errno.ECONNRESET)]:
            for seed in range(SEEDS):
                text = self.flow("close_amid", kind, seed)
                writes = re.findall(r"write (-?\d+) (\d+)", text)
                self.assertEqual(writes[-1], ("-1", str(error)), kind)
                self.assertTrue(all(int(size) > 0 for size, _ in writes[:-1]))

    def test_calls_read_no_clock(self):
        # the program reads one for each line of its log
        folder = self.folder
        self.run_on(*STILL, "--seed", 1, "--record", folder / "r", "--readers", "--check", "--",
                    FLOWS, folder / "log", "both_at_once", "tcp")
        reads = [line for line in (folder / "r.readers").read_text().splitlines()
                 if line.endswith(",turn_flows")]
        self.assertEqual({line.split(",")[4] for line in reads}, {"clock_gettime"})
        self.assertEqual(len(reads), len((folder / "log").read_text().splitlines()))

    def test_what_ends_a_wait(self):
        # as on the host, where a connection of TCP has space for another number of bytes each time
        texts = host_call(program("turn_blocked")).split("unix\n")
        same = texts[0] + "".join("unix\n" + text for text in texts[1:4]).split("tcp\n")[0]
        for seed in range(SEEDS):
            shown = self.run_on(*STILL, "--seed", seed, "--", program("turn_blocked"))
            pipe_and_unix, *tcp = shown.split("tcp\n")
            self.assertEqual(pipe_and_unix, same)
            self.assertEqual("".join("unix\n" + text for text in tcp),
                             same[same.index("unix\n"):])

    def test_a_file_that_comes_with_bytes(self):
        shown = host_call("python3", FILES)
        self.assertEqual(shown, "500000\n500000 1\n")
        for seed in range(SEEDS):
            self.assertEqual(self.run_on(*STILL, "--seed", seed, "--", "python3", "-c", FILES),
                             shown)

    def test_the_time_of_a_wait_for_space(self):
        self.assertEqual(self.run_on(*STILL, "--seed", 1, "--", "python3", "-c", SPANS), "")

    def test_each_call_against_a_model(self):
        addresses = [("127.0.0.1", "127.0.0.1"), ("127.0.0.1", "::ffff:127.0.0.1")]
        if socket.has_dualstack_ipv6():
            addresses += [("::1", "::1")]
        for seed, pair in enumerate(addresses):
            code = MODEL.format(space=SPACE, seed=seed, addresses=pair)
            self.assertEqual(self.run_on(*STILL, "--seed", seed, "--", "python3", "-c", code),
                             "same\n")
