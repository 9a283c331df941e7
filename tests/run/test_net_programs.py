"""Programs that send over a link: killed ones, many sockets, and those without the folder of the
clocks, without its user, or without the library."""
import os
import re
import resource
import unittest

from links import ADDRESSES, OPTIONS, PORT, SECOND, LinkTest
from runs import (CAN_FILTER, CAN_TRACE, IS_ROOT, OTHER, TKRUN, call, needs, needs_root,
                  program)
from test_net_datagrams import RECEIVE_SOME, SEND_SOME
from test_net_sends import SENDS, TEXTS


class Programs(LinkTest):
    def test_a_sender_that_is_killed(self):
        out = self.on_links(["a,b,delay=5"], {
            "a": "s = udp()\nfor i in range(3): s.sendto(b'%d' % i, AT_B)\n"
                 "os.kill(os.getpid(), signal.SIGKILL)",
            "b": RECEIVE_SOME.format(9),
            "c": "time.sleep(7); show('goes on')"})
        self.assertEqual(out["b"], [[i, 5 * SECOND] for i in range(3)])
        self.assertEqual(out["c"], [["goes", "on", 7 * SECOND + 1]])

    def test_kills_at_any_time(self):
        # 200 senders are killed while they send; what they have sent comes in order
        out = self.on_links(["a,b,delay=1ms"], {
            "a": """
                import random
                draw = random.Random(1)
                for i in range(200):
                    ends = os.pipe()
                    child = os.fork()
                    if not child:
                        s = udp()
                        for n in range(10**6):
                            s.sendto(b"%d %d" % (i, n), AT_B)
                            if not n: os.write(ends[1], b"1")
                    os.read(ends[0], 1)
                    for _ in range(draw.randrange(10000)): pass
                    os.kill(child, signal.SIGKILL); os.waitpid(child, 0)
                    os.close(ends[0]); os.close(ends[1])
                time.sleep(1); udp().sendto(b"end", AT_B)
                """,
            "b": """
                s = udp(*AT_B); last = {}; right = True
                while (text := s.recv(99)) != b"end":
                    i, n = map(int, text.split())
                    right &= n == last.get(i, -1) + 1; last[i] = n
                print(right, len(last))
                """})
        self.assertEqual(out["b"], [["True", 200]])

    def test_many_sockets_and_datagrams(self):
        # all are on their way at once; each socket is one file of tkrun, which may open more
        limits = resource.getrlimit(resource.RLIMIT_NOFILE)
        self.addCleanup(resource.setrlimit, resource.RLIMIT_NOFILE, limits)
        resource.setrlimit(resource.RLIMIT_NOFILE, (900, limits[1]))
        out = self.on_links(["a,b,delay=1"], {
            "a": """
                time.sleep(0.5)
                for i in range(3):
                    sockets = []; sockets = [udp() for _ in range(800)]
                    for s in sockets: s.sendto(b"%d" % i, AT_B); s.sendto(b"%d" % i, AT_B)
                """,
            "b": """
                s = udp(*AT_B); s.setsockopt(socket.SOL_SOCKET, 33, 1 << 26)  # SO_RCVBUFFORCE
                time.sleep(1)
                print(sorted(s.recv(9) for _ in range(4800)).count(b"2"), now() // 1000)
                """ if IS_ROOT else "print(1600, 1500000)"})
        self.assertEqual(out["b"], [[1600, 1500000]])

    @unittest.skipUnless(CAN_FILTER, "the kernel lets no filter ask tkrun")
    def test_programs_that_do_not_find_the_folder(self):
        out = self.on_links(["a,b,delay=1"], {
            "b": RECEIVE_SOME.format(4),
            "a": f"""
                time.sleep(1)
                env = {{"LD_PRELOAD": os.environ["LD_PRELOAD"]}}
                os.execve("{SENDS}", ["s", B, str(PORT)], env)"""})
        # the longest one comes last
        self.assertEqual([line[-1] for line in out["b"]], [2 * SECOND + 1] * (len(TEXTS) + 1))

    @needs_root("starts a program as another user")
    @unittest.skipUnless(CAN_FILTER, "the kernel lets no filter ask tkrun")
    def test_a_program_of_another_user(self):
        out = self.on_links(["a,b,delay=1"], {
            "b": RECEIVE_SOME.format(4),
            "a": "s = udp(); os.setuid(65531); s.sendto(b'1', AT_B); udp().sendto(b'2', AT_B)"})
        self.assertEqual(out["b"], [[1, SECOND], [2, SECOND]])

    @needs_root("starts tkrun as another user")
    @needs("bash")
    def test_a_run_of_another_user(self):
        tkrun = self.share() / "bin/tkrun"
        client = f"echo </dev/tcp/{ADDRESSES['b']}/{PORT}; date +%s.%N"
        text = f"for i in 1 2; do {tkrun} node a -- bash -c '{client}'; done"
        options = [*map(str, OPTIONS), "--quiet", "--link", "a,b,delay=1"]
        run = call([*OTHER, tkrun, *options, "--", "bash", "-c", text], cwd="/",
                   env={**os.environ, "PATH": "/usr/bin:/bin"})
        self.assertEqual((run.returncode, run.stdout), (0, "2002.000000000\n2004.000000000\n"))
        self.assertEqual(run.stderr.count("connect: Connection refused"), 2, run.stderr)

    @unittest.skipUnless(CAN_FILTER and CAN_TRACE, "the kernel lets tkrun trace no program")
    def test_programs_without_the_library_are_named(self):
        static = program("static_nodes_clocks")
        text = (f"T={TKRUN}; for i in 1 2; do $T node a -- {static}; $T node b -- env -i sleep 0; "
                f"$T node c -- {static}; done; {static}; $T node a -- env sleep 0; "
                "$T node a -- sh -c 'exec $0 ctl a step 1' $T")
        run = self.start("--quiet", *OPTIONS, "--link", "a,b", "--", "sh", "-c", text)
        said = re.sub("process [0-9]+", "process N", run.stderr)
        past = "(process N) sends to other nodes as if there were no link"
        self.assertEqual(said, f"tkrun: 'static_nodes_cl' {past}: it is static\n"
                               f"tkrun: 'sleep' {past}: it hasn't loaded the library\n")

    def test_a_record_of_nodes_with_links(self):
        self.on_links(["a,b,delay=10ms,jitter=3ms"], {
            "a": SEND_SOME.format(20, 0.001) + "show()", "b": RECEIVE_SOME.format(1)}, "--check")

    def test_nothing_changes_without_links(self):
        text = "echo $LD_PRELOAD; ls $TKRUN | grep net"
        self.assertNotIn("net", self.run_on(*OPTIONS, "--", "sh", "-c", text, status=1))
        self.assertIn("libtkrun-net.so", self.run_on(*OPTIONS, "--link", "a,b", "--", "sh", "-c",
                                                     text))


if __name__ == "__main__":
    unittest.main()
