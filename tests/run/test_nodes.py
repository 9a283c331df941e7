"""Nodes: machines with their own clocks over one common counter. Their times are computed here,
from the common counter in ns and the factor by which a node's counter is faster."""
import os
import re
import unittest
from fractions import Fraction

from runs import CAN_FILTER, CAN_TRACE, ROOT, STILL, TKRUN, RunTest, call, program

SECOND = 10**9
CLOCKS = program("nodes_clocks")
# node: its options, its factor, and its REALTIME and MONOTONIC at the start
NODES = {
    "fast": ("error-ppm=250000,start=1000,uptime=5", Fraction(5, 4), 1000 * SECOND, 5 * SECOND),
    "slow": ("error-ppm=-500000,ahead=-5.5", Fraction(1, 2), 1994 * SECOND + 5 * 10**8, 0),
    "same": ("", Fraction(1), 2000 * SECOND, 0),
}
OPTIONS = [*STILL, "--start", 2000]
for NAME, (WORDS, *_) in NODES.items():
    OPTIONS += ["--node", f"{NAME},{WORDS}".rstrip(",")]


def after_sleep(factor, cycles, span):
    """The cycles of a node that has slept for some ns: the first reading past the end that a ns of
    the common counter gives."""
    common = -(-(cycles + span + 1) // factor)
    return common * factor // 1


def times(name, spans):
    """What nodes_clocks prints on a node."""
    _, factor, real, mono = NODES[name]
    cycles, lines = 0, []
    for span in [0, *spans]:
        cycles = after_sleep(factor, cycles, span) if span else cycles
        lines.append(f"{real + cycles} {mono + cycles}\n")
    return "".join(lines)


class Nodes(RunTest):
    def script(self, text):
        """A script on the program's clocks. It knows tkrun as $T and nodes_clocks as $P."""
        return ["--", "sh", "-c", f"cd {self.folder}; T={TKRUN} P={CLOCKS}; {text}"]

    def read(self, name):
        return (self.folder / name).read_text()

    def compare(self, command, *options):
        """Runs a command that sleeps on each node, and on the program's clocks."""
        spans = [4 * SECOND, SECOND, 3]
        words = " ".join(map(str, spans))
        text = "".join(f"$T node {name} -- {command} {words} >{name} & " for name in NODES)
        self.assertEqual(self.run_on(*OPTIONS, *options,
                                     *self.script(f"{text} {command} {words}; wait")),
                         times("same", spans))
        for name in NODES:
            with self.subTest(node=name):
                self.assertEqual(self.read(name), times(name, spans))

    def test_each_node_has_its_clocks(self):
        self.compare("$P", "--check")

    @unittest.skipUnless(CAN_FILTER, "the kernel lets no filter ask tkrun")
    def test_programs_without_the_library_have_the_clocks_of_their_node(self):
        for command in [program("static_nodes_clocks"), "env -i $P"]:
            self.compare(command)
            self.compare(command, "--check")  # its reads are system calls then

    @unittest.skipUnless(CAN_FILTER, "the kernel lets no filter ask tkrun")
    def test_a_daemon_stays_on_its_node(self):
        # its parent has ended, and it has neither the environment nor the session of the node
        inner = f"setsid env -i sh -c '{CLOCKS} {SECOND} >made' &"
        text = f'$T node fast -- sh -c "{inner}"; sleep 5'
        self.run_on("--static", *OPTIONS, *self.script(text))
        self.assertEqual(self.read("made"), times("fast", [SECOND]))

    def test_a_program_may_go_from_one_node_to_another(self):
        text = ("$T node fast -- $T node slow -- $P; "
                "$T node slow -- sh -c '$0 node fast -- $1' $T $P")
        self.assertEqual(self.run_on(*OPTIONS, *self.script(text)),
                         times("slow", []) + times("fast", []))

    def test_the_counters_of_all_nodes_move_together(self):
        # after 7 s and 1 ns of the common counter
        common = 7 * SECOND + 1
        text = "sleep 7; $P; " + "".join(f"$T node {name} -- $P; " for name in NODES)
        expected = [f"{2000 * SECOND + common} {common}\n"]
        expected += [f"{real + common * factor // 1} {mono + common * factor // 1}\n"
                     for _, factor, real, mono in NODES.values()]
        self.assertEqual(self.run_on(*OPTIONS, *self.script(text)), "".join(expected))

    def test_a_set_of_one_node_changes_no_other(self):
        text = ("$T node same -- date -u -s @5 >same; $T node fast -- $P; $T node same -- $P; $P")
        self.assertEqual(self.run_on(*OPTIONS, "--check", *self.script(text)),
                         times("fast", []) + f"{5 * SECOND} 0\n{2000 * SECOND} 0\n")

    def test_a_node_with_a_script_and_a_discipline(self):
        # after 2 s, its clocks are set; the frequency is 500 ppm, 32768000 / 2^16
        script = self.file("s", "openhz,64,1000000000,1,0,5,0,250\nfreq,0,32768000\n"
                                "set,2000000000,100,0\n")
        options = [*STILL, "--start", 7, "--uptime", 1, "--node", f"a,script={script}", "--check"]
        text = "sleep 4; $T node a -- $P; $P"
        spent = 2 * SECOND + 1  # after the set
        mono = (4 * SECOND + 1) * 1000500 // 1000000
        real = 100 * SECOND + spent * 1000500 // 1000000
        lines = self.run_on(*options, *self.script(text)).split("\n")
        self.assertEqual(lines[1], f"{11 * SECOND + 1} {5 * SECOND + 1}")
        # the clocks may lag by a tick's part of a ns at the set
        self.assertLessEqual(abs(int(lines[0].split()[0]) - real), 1)
        self.assertLessEqual(abs(int(lines[0].split()[1]) - mono), 1)

    def test_a_script_of_the_program_commands_no_node(self):
        # a node starts as the program's clocks do, and only these are set after 1 s
        script = self.file("s", "openhz,64,1000000000,1,0,5,0\nset,1000000000,100,0\n")
        now = 2 * SECOND + 1
        self.assertEqual(self.run_on(*STILL, "--script", script, "--node", "a", "--check",
                                     *self.script("sleep 2; $P; $T node a -- $P")),
                         f"{99 * SECOND + now} {now}\n{5 * SECOND + now} {now}\n")

    def test_the_calls_that_steer_clocks_on_two_nodes(self):
        options = [*STILL, "--start", 1000000000, "--node", "a", "--node", "b"]
        steers = program("steers")
        text = f"$T node a -- {steers} & $T node b -- {steers}; wait"
        self.assertEqual(self.run_on(*options, "--check", *self.script(text)), "")

    def test_the_status_is_that_of_the_program(self):
        self.run_on("--node", "a", *self.script("$T node a -- sh -c 'exit 7'"), status=7)
        self.assertEqual(call([TKRUN, "--quiet", "--node", "a", "--", TKRUN, "node", "a", "--",
                               "/nowhere"]).returncode, 127)
        self.assertEqual(call([TKRUN, "--quiet", "--node", "a", "--", TKRUN, "node", "a", "--",
                               "/etc/passwd"]).returncode, 126)

    def test_a_program_named_node(self):
        path = self.file("node", "#!/bin/sh\necho \"$@\"\n")
        path.chmod(0o755)
        env = {"PATH": f"{self.folder}:{os.environ['PATH']}"}
        for words, out in [(["node", "x"], "x\n"), (["--", "node", "a", "--", "x"], "a -- x\n")]:
            run = self.start("--quiet", *words, env=env)
            self.assertEqual((run.returncode, run.stdout), (0, out))

    def test_how_often_the_counter_moves_is_measured(self):
        run = call([ROOT / "bench/tkrun/nodes", "2", "3"])
        self.assertEqual((run.returncode, run.stderr), (0, ""))
        # (six threads sleep 50 times more in the long run)
        self.assertRegex(run.stdout, r"\A2 nodes of 3 threads: 300 moves, -?\d+ in a second of the "
                                     r"host, -?\d+ in a second of processor time\n\Z")

    def test_running_counters(self):
        # the node counts between the two reads of the program's clocks
        text = "$P 3000000; $T node a -- $P; $P"
        for counter in ["raw", "tsc"]:
            out = self.run_on("--counter", counter, "--start", 5, "--node", "a,error-ppm=500000",
                              "--check", *self.script(text))
            _, first, node, last = [int(line.split()[1]) for line in out.splitlines()]
            self.assertTrue(first * 3 // 2 - 2 <= node <= last * 3 // 2 + 2, out)

    def test_running_counters_start_at_the_same_moment(self):
        # the second number of struct shared_page in run/clocks/shared.h, in the file of each node
        text = "for page in $TKRUN/page $TKRUN/node.a/page; do od -An -t u8 -j 8 -N 8 $page; done"
        first, second = self.run_on("--node", "a", *self.script(text)).split()
        self.assertEqual(first, second)

    def test_records_are_placed_on_the_common_counter(self):
        record = self.folder / "r"
        text = "".join(f"$T node {name} -- $P {SECOND} {SECOND}& " for name in NODES)
        self.run_on(*OPTIONS, "--record", record, "--check", *self.script(f"{text} wait"))
        placed = {}
        for line in self.read("r.nodes").splitlines():
            name, *numbers = line.split(",")
            placed[name] = [int(number) for number in numbers]
        self.assertEqual(sorted(placed), ["", *sorted([*NODES, "true"])])
        self.assertEqual(placed["true"], [0, 0, 1, 0])
        for name, (_, factor, *_) in NODES.items():
            common, reading, scale, shift = placed[name]
            self.assertEqual((common, reading, Fraction(scale, 2**shift)), (0, 0, factor))
            readings = {int(line.split(",")[1]) for line in self.read(f"r.{name}").splitlines()
                        if line.startswith("get,")}
            cycles = [0]
            for span in [SECOND, SECOND]:
                cycles.append(after_sleep(factor, cycles[-1], span))
            self.assertEqual(readings, set(cycles))
        self.assertFalse(list(self.folder.glob("*.rows")))

    @unittest.skipUnless(CAN_TRACE, "no process may be traced")
    def test_a_process_of_a_node_that_is_stopped_while_it_has_the_lock(self):
        self.check_holder(*STILL, "--node", "a", "--", TKRUN, "node", "a", "--")

    def test_killed_processes_leave_the_others(self):
        # no time passes while b computes, so each of its sleeps takes 1 ns more than its span
        text = (f"$T node b -- $P {'1000000 ' * 100} >b & $T node a -- $P {'1000000 ' * 100} >a & "
                f"{program('nodes_kills')} 200 $T node a -- {program('nodes_kills')}; wait")
        options = [*STILL, "--start", 5, "--every", 100, "--node", "a", "--node", "b"]
        run = self.start(*options, "--check", *self.script(text))
        self.assertRegex(run.stdout, "^killed 20[01]\n$")
        self.assertEqual(run.returncode, 0, run.stderr)
        self.assertEqual(self.read("b").splitlines()[-1],
                         f"{5 * SECOND + 100 * 1000001} {100 * 1000001}")
        self.assertEqual(self.read("a").splitlines()[-1].split()[1], str(100 * 1000001))
        self.assertEqual(len(re.findall("check: tkcore gives each of the", run.stderr)), 3)


class Faults(RunTest):
    def refuse(self, *arguments, status=2):
        made = self.folder / "made"
        run = self.start(*arguments, "--", "touch", made)
        self.assertEqual((run.returncode, run.stdout), (status, ""))
        self.assertEqual(len(run.stderr.splitlines()), 1, run.stderr)
        self.assertFalse(made.exists())
        return run.stderr

    def test_names(self):
        for name in ["", "1", "-", "_a", "a b", "a/b", "a.b", "é", "rows", "nodes", "true", "a" * 32, "=",
                     ".."]:
            with self.subTest(name=name):
                self.assertEqual(self.refuse("--node", name).count(f"'{name}' isn't a name"), 1)
        self.assertEqual(self.refuse("--node", "a", "--node", "b", "--node", "a,start=5"),
                         "tkrun: --node a: two nodes have this name\n")
        many = [word for i in range(65) for word in ("--node", f"n{i}")]
        self.assertEqual(self.refuse(*many), "tkrun: --node: there are more than 64\n")
        self.assertEqual(self.start("--quiet", *many[2:], "--", "true").returncode, 0)

    def test_options(self):
        script = self.file("s", "openhz,64,1000000000,1,0,5,0\n")
        wrong = {
            "": "'' is no option", "x=1": "'x' is no option", "hz": "'hz' has no value",
            "record=r": "'record' is no option", "node=b": "'node' is no option",
            "speed=2": "'speed' is no option", "counter=raw": "'counter' is no option",
            "hz=0": "--hz: '0'", "error-ppm=1000001": "--error-ppm", "start=x": "--start",
            "start=1,ahead=1": "exclude each other", f"script={script},start=1": "--script opens",
            "script=/nowhere/s": "cannot read", "uptime=7": "before 1970", "ahead=-7": "start at",
            f"script={script},hz=7": "another counter", "bits=65": "--bits",
        }
        for words, sentence in wrong.items():
            with self.subTest(words=words):
                line = self.refuse(*STILL, "--start", 6, "--node", "b", "--node", f"a,{words}")
                self.assertIn(sentence, line)
                self.assertTrue(line.startswith("tkrun: --node a: "), line)

    def test_a_node_that_is_not_there(self):
        made = self.folder / "made"
        for run_options, name, sentence in [
                (["--node", "a"], "b", "there is no node 'b'"), ([], "a", "there is no node 'a'"),
                (["--node", "a"], "../x", "there is no node '../x'")]:
            run = self.start("--quiet", *run_options, "--", TKRUN, "node", name, "--", "touch",
                             made)
            self.assertEqual((run.returncode, run.stdout, run.stderr),
                             (2, "", f"tkrun: node: {sentence}\n"))
        run = call([TKRUN, "node", "a", "--", "touch", made],
                   env={name: text for name, text in os.environ.items() if name != "TKRUN"})
        self.assertEqual((run.returncode, run.stderr),
                         (2, "tkrun: node: this program isn't run by tkrun\n"))
        self.assertEqual(call([TKRUN, "node", "a", "--"]).returncode, 2)
        self.assertFalse(made.exists())

    def test_records_that_cannot_be_written(self):
        (self.folder / "r.nodes").mkdir()
        self.assertIn("cannot write", self.refuse("--record", self.folder / "r", "--node", "a"))
        (self.folder / "s.a").mkdir()
        self.assertIn("cannot write", self.refuse("--record", self.folder / "s", "--node", "a"))

    def test_nothing_is_left(self):
        run = self.start("--quiet", "--check", "--node", "a", "--", TKRUN, "node", "a", "--", "sh",
                         "-c", "echo $TKRUN")
        folder = run.stdout.strip()
        self.assertRegex(folder, "/tkrun.[^/]*/node.a$")
        self.assertFalse(os.path.exists(os.path.dirname(folder)))
