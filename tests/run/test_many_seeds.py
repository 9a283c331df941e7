"""--seed: 20 runs of one seed are equal, of three servers in Python that elect leaders through
partitions (raft.py), and of three chronyd, and six of a redis with three sentinels."""
import faulthandler
import pathlib
import re
import shutil
import unittest

from links import ADDRESSES, PORT, LinkTest
from runs import SECONDS, STILL, TKRUN, needs, needs_root

CHRONYD = shutil.which("chronyd", path="/usr/sbin:/sbin:/usr/bin:/bin")
RUNS, SEEDS = 20, 4
FEWER = 6  # runs of redis, which take longer
RAFT = pathlib.Path(__file__).with_name("raft.py")
# each server is alone for a while, so a leader is
ALONE = {"a": (3, 5), "b": (7, 9), "c": (11, 13)}
SESSION = """
    P=; i=0
    for n in a b c; do
        {tkrun} node $n -- python3 -B {raft} $i {port} {addresses} >$n.out 2>&1 & P="$P $!"
        i=$((i + 1))
    done
    sleep 15; kill $P; wait"""
DAEMONS = """
    {tkrun} node a -- {daemon} -x -f {folder}/a >a.out 2>&1 & P=$!
    for n in b c; do
        {tkrun} node $n -- {daemon} -f {folder}/$n >$n.out 2>&1 & P="$P $!"
    done
    sleep 3600; kill $P; wait"""
# The redis of b follows that of a, which is killed: two of three sentinels must find that. Without
# MALLOC_CONF, the memory allocator of redis reads a clock after a number of bytes, and so at other
# times if a variable is longer.
SENTINELS = r"""
    export MALLOC_CONF=dirty_decay_ms:-1,muzzy_decay_ms:-1
    a={a} b={b} c={c} P=
    for n in a b; do
        eval address=\$$n
        [ $n = a ] && of= || of="--replicaof $a {port}"
        {tkrun} node $n -- redis-server --port {port} --bind $address --protected-mode no \
            --save '' --repl-diskless-sync-delay 0 --hz 1 $of >$n.log 2>&1 & P="$P $!"
    done
    set -- $P; sleep 3
    for n in a b c; do
        eval address=\$$n
        printf '%s\n' 'port {other}' "bind $address" 'protected-mode no' \
            "sentinel monitor it $a {port} 2" 'sentinel down-after-milliseconds it 3000' \
            'sentinel failover-timeout it 3000' >$n.conf
        {tkrun} node $n -- redis-sentinel $n.conf >$n.out 2>&1 & P="$P $!"
    done
    sleep 5; kill -9 $1; sleep 15; set -- $P; shift; kill $@; wait"""
CLIENT = re.compile(r"(?<= addr=)[0-9.:]+")  # in a log of redis: the kernel chooses the port
COMMON = "cmdport 0\nbindcmdaddress /\nclockprecision 1e-9\n"


class Seeds(LinkTest):
    more = ()  # the other files of a session

    def make(self, seed, session, *options, env=None):
        """Runs a session on three nodes, in an empty folder. Returns the records and outputs."""
        folder = self.folder / "run"
        folder.mkdir()
        faulthandler.dump_traceback_later(2 * SECONDS, exit=True)  # for this run, not for the test
        run = self.start("--quiet", *STILL, "--seed", seed, "--start", 10**9, "--record",
                         folder / "r", "--check", *options, "--", "sh", "-c",
                         f"cd {folder}\n{session}", env=env)
        self.assertEqual((run.returncode, run.stdout, run.stderr), (0, "", ""))
        texts = {path.name: CLIENT.sub("", path.read_text("latin-1"))
                 for path in sorted(folder.iterdir())}
        self.assertEqual([*texts], sorted([*(f"{n}.out" for n in "abc"), "r", "r.a", "r.b", "r.c",
                                           "r.nodes", *self.more]))
        shutil.rmtree(folder)
        return texts

    def check_seeds(self, *arguments, runs=RUNS):
        """Compares runs of one seed, and of others. Returns those of each seed."""
        seeds = {seed: self.make(seed, *arguments) for seed in range(SEEDS)}
        for i in range(runs - 1):
            with self.subTest(i):
                self.assertEqual(self.make(0, *arguments), seeds[0])
        for name in ("r", "r.a", "r.b", "r.c"):
            self.assertEqual(len({texts[name] for texts in seeds.values()}), SEEDS, name)
        return seeds.values()

    def test_servers_that_elect_leaders(self):
        plan = self.file("plan", "".join(
            f"at {at} {what} {name} {other}\n" for name, span in ALONE.items()
            for at, what in zip(span, ("partition", "heal")) for other in "abc" if other != name))
        nodes = [word for name, address in ADDRESSES.items()
                 for word in ("--node", f"{name},address={address},error-ppm={ord(name) - 98}")]
        links = [word for pair in ("a,b", "a,c", "b,c")
                 for word in ("--link", f"{pair},delay=3ms,jitter=2ms")]
        text = SESSION.format(tkrun=TKRUN, raft=RAFT, port=PORT,
                              addresses=" ".join(ADDRESSES.values()))
        for texts in self.check_seeds(text, *nodes, *links, "--plan", plan):
            leaders = [(term, name) for name in "abc"
                       for term in re.findall(r"leader (\d+)", texts[f"{name}.out"])]
            # one in each term, and another one while the first one is alone
            self.assertEqual(len(dict(leaders)), len(leaders))
            self.assertGreater(len(leaders), 1)

    @needs_root("runs a chronyd")
    @unittest.skipUnless(CHRONYD, "chronyd isn't installed")
    def test_three_chronyd(self):
        server = ("local stratum 1\nallow 127.0.0.0/8\n"
                  f"bindaddress {ADDRESSES['a']}\nport {PORT}\n")
        client = ("port 0\nmakestep 0.1 3\n"
                  f"server {ADDRESSES['a']} port {PORT} minpoll 4 maxpoll 6 iburst\n")
        for name in "abc":
            self.file(name, f"{COMMON}pidfile {self.folder}/{name}.pid\n"
                            + (server if name == "a" else client))
        nodes = [word for name, more in [("a", ""), ("b", ",error-ppm=80,ahead=2"),
                                         ("c", ",error-ppm=-40,wander-ppm=0.01,ahead=-5")]
                 for word in ("--node", f"{name},address={ADDRESSES[name]}{more}")]
        links = [word for name in "bc"
                 for word in ("--link", f"{name},a,delay=10ms,jitter=0.5ms,loss=0.01")]
        text = DAEMONS.format(tkrun=TKRUN, folder=self.folder, daemon=f"{CHRONYD} -d -u root -F 0")
        for texts in self.check_seeds(text, *nodes, *links):
            for name in "bc":
                self.assertIn("Selected source", texts[f"{name}.out"])

    @needs_root("lets processes have equal numbers")
    @needs("redis-server")
    @needs("redis-sentinel")
    def test_redis_with_sentinels(self):
        self.more = ["a.conf", "b.conf", "c.conf", "a.log", "b.log", "dump.rdb"]
        nodes = [word for name, address in ADDRESSES.items()
                 for word in ("--node", f"{name},address={address}")]
        links = [word for pair in ("a,b", "a,c", "b,c")
                 for word in ("--link", f"{pair},delay=5ms,jitter=1ms")]
        text = SENTINELS.format(tkrun=TKRUN, port=PORT, other=PORT + 1, **ADDRESSES)
        said = f"+switch-master it {ADDRESSES['a']} {PORT} {ADDRESSES['b']} {PORT}"
        seeds = list(self.check_seeds(text, *nodes, *links, runs=FEWER))
        for texts in seeds:
            for name in "abc":
                self.assertIn(said, texts[f"{name}.out"])
        self.assertEqual(self.make(0, text, *nodes, *links, env={"LONG": "x" * 20000}), seeds[0])
