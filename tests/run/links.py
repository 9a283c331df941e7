"""What the tests of links between nodes share: Python programs on two or three nodes."""
import os
import random
import re
import textwrap

from runs import STILL, TKRUN, RunTest

SECOND = 10**9
MILLI = 10**6
START = 2000  # the REALTIME of all nodes, in s, when a run starts
# no other test that runs now has these
DRAW = random.Random(os.getpid())
NETWORK = "127.{}.{}.".format(*DRAW.sample(range(1, 64), 2))
PORT = DRAW.randrange(10000, 32000)  # the kernel chooses none of these
ADDRESSES = {name: f"{NETWORK}{i + 1}" for i, name in enumerate("abc")}


def options_of(addresses, more=""):
    """The options of nodes with these addresses, each with the same more."""
    words = [*STILL, "--start", START]
    for name, address in addresses.items():
        words += ["--node", f"{name},address={address}{more}"]
    return words


OPTIONS = options_of(ADDRESSES)
# what each program begins with: ANY and HOST are addresses of the family of the nodes, and server
# makes a socket that listens
PRELUDE = f"""import errno, os, select, signal, socket, struct, sys, time
PORT = {PORT}
A, B, C = NODES
AT_B = B, PORT
FAMILY = socket.AF_INET6 if ":" in A else socket.AF_INET
ANY, HOST = ("::", "::1") if ":" in A else ("0.0.0.0", "127.0.0.1")
def now(): return time.clock_gettime_ns(time.CLOCK_REALTIME) - {START} * 10**9
def show(*words): print(*words, now(), flush=True)
def tcp(): return socket.socket(FAMILY)
def server(name, **options): return socket.create_server(name, family=FAMILY, **options)
def udp(*name):
    new = socket.socket(FAMILY, socket.SOCK_DGRAM)
    if name: new.bind(name)
    return new
"""
# serve prints when a connection, its first bytes and its end have come, and how many bytes with
# which sum; connect_later doesn't block
STREAMS = PRELUDE + """
import zlib
def listen():
    global listener
    listener = server(AT_B)
    listener.settimeout(200)
def serve(name=""):
    s, peer = listener.accept()
    show(name + "accepted", peer == s.getpeername(), peer[0])
    total = check = 0
    while data := s.recv(1 << 20):
        if not total: show(name + "first")
        total += len(data); check = zlib.crc32(data, check)
    show(name + "end", total, check)
    return s
def connect(to=AT_B, name=None):
    s = tcp()
    if name: s.bind(name)
    try: s.connect(to); show("connected", s.getpeername()[:2] == to)
    except OSError as error: show(errno.errorcode[error.errno])
    return s
def reset(s):
    s.setsockopt(socket.SOL_SOCKET, socket.SO_LINGER, struct.pack("ii", 1, 0)); s.close()
def connect_later(to=AT_B):
    s = tcp(); s.setblocking(False)
    show(errno.errorcode[s.connect_ex(to)])
    poll = select.poll(); poll.register(s, select.POLLOUT)
    poll.poll()
    error = s.getsockopt(socket.SOL_SOCKET, socket.SO_ERROR)
    show(errno.errorcode[error] if error else "connected")
    return s
"""
THERE, BACK = 10 * MILLI, 30 * MILLI
LINKS = ["a,b,delay=10ms", "b,a,delay=30ms"]
NOW = SECOND + 1  # after the client's sleep


class LinkTest(RunTest):
    addresses, family, host, network = ADDRESSES, "socket.AF_INET", "127.0.0.1", []
    prelude = PRELUDE

    def setUp(self):
        super().setUp()
        self.options = self.make_options()

    def make_options(self):
        return options_of(self.addresses)

    def script(self, programs, before=""):
        """A shell script that runs a Python program on each node, and waits for all. Those that
        still wait after a long time of the clocks are killed."""
        lines = [before]
        for name, text in programs.items():
            head = f"NODES = {tuple(self.addresses.values())}\n"
            path = self.file(f"{name}.py", head + self.prelude + textwrap.dedent(text))
            lines.append(f"{TKRUN} node {name} -- python3 -B {path} >{self.folder}/{name} 2>&1 & "
                         "P=\"$P $!\"")
        lines.append("exec 2>/dev/null; { sleep 100000; kill -9 $P; } & wait $P; true")
        return ["--", "sh", "-c", "\n".join(lines)]

    def read(self, name):
        """What the program of a node has printed: the words of each line, numbers as such."""
        return [[int(word) if word.lstrip("-").isdigit() else word for word in line.split()]
                for line in (self.folder / name).read_text().splitlines()]

    def on_links(self, links, programs, *options, before="", says=""):
        """Runs the programs with these links. Returns what each of them has printed. tkrun prints
        what `says` is."""
        words = [word for link in links for word in ("--link", link)]
        run = self.start("--quiet", *self.options, *words, *options, *self.script(programs, before))
        said = re.sub("process [0-9]+", "process N", run.stderr)
        self.assertEqual((run.returncode, run.stdout, said), (0, "", says))
        return {name: self.read(name) for name in programs}
