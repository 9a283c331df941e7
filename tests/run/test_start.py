"""--start with a lead and a speed, and what else libfaketime can do."""
import time
from fractions import Fraction

from runs import STILL, TKRUN, RunTest, program

SECOND = 10**9
CLOCKS = program("nodes_clocks")
# the numbers of struct shared_page in run/clocks/shared.h by which the counter moves
SCALE = "od -An -t u8 -j 16 -N 8 $TKRUN/page; od -An -t u4 -j 40 -N 4 $TKRUN/page"


class Start(RunTest):
    def test_leads(self):
        leads = {"+1": 1, "-1": -1, "+2s": 2, "-3m": -180, "+4h": 14400, "+2d": 172800,
                 "-1.5d": -129600, "+1y": 31536000, "-0.25": -0.25, "+0": 0}
        nodes = [word for i, lead in enumerate(leads) for word in ("--node", f"n{i},start={lead}")]
        text = "; ".join(f"{TKRUN} node n{i} -- {CLOCKS}" for i in range(len(leads)))
        out = self.run_on(*STILL, "--start", 10**9, *nodes, "--check", "--", "sh", "-c", text)
        self.assertEqual(out, "".join(f"{10**18 + int(sec * SECOND)} 0\n"
                                      for sec in leads.values()))

    def test_a_lead_of_a_node_is_its_own(self):
        out = self.run_on(*STILL, "--start", "+2d", "--node", "a,ahead=1", "--", "sh", "-c",
                          f"{CLOCKS}; {TKRUN} node a -- {CLOCKS}")
        own, node = [int(line.split()[0]) for line in out.splitlines()]
        self.assertEqual(node - own, SECOND)

    def test_a_lead_over_the_host(self):
        for lead, sec in [("+2d", 172800), ("-1h", -3600)]:
            before = time.time_ns()
            real = int(self.run_on(*STILL, "--start", lead, "--", CLOCKS).split()[0])
            self.assertTrue(before <= real - sec * SECOND <= time.time_ns())

    def test_a_speed(self):
        for words, speed in [("+2d x2", 2), ("5 x0.5", Fraction(1, 2)),
                             ("2038-01-19T03:14:07.25Z x10", 10), ("+1", 1)]:
            scale, shift = map(int, self.run_on("--start", words, "--", "sh", "-c", SCALE).split())
            self.assertEqual(Fraction(scale, 2**shift), speed)
        out = self.run_on("--start", "2038-01-19T03:14:07.25Z x0.000001", "--", CLOCKS)
        self.assertEqual(int(out.split()[0]) // SECOND, 2**31 - 1)

    def test_faults(self):
        for words, sentence in [
                (["--start", "+2w"],
                 "--start: '+2w' isn't [+-]NUMBER[s|m|h|d|y] up to 1000000000 s"),
                (["--start", "+1 x0"], "--start: '0' isn't a number from 1e-06 to 100000"),
                (["--start", "+1", "--ahead", "2"], "--start and --ahead exclude each other"),
                (["--node", "a,start=+1 x2"], "--node a: --start: a node has no speed"),
                (["--node", "a,start=+1,ahead=1"],
                 "--node a: --start and --ahead exclude each other"),
                (["--start", "+1 x2", *STILL], "--counter sleeps has no speed and no error: the "
                                               "host's time doesn't move it")]:
            run = self.start(*words, "--", "touch", self.folder / "made")
            self.assertEqual((run.returncode, run.stderr), (2, f"tkrun: {sentence}\n"))
        self.assertFalse((self.folder / "made").exists())


class Recipes(RunTest):
    """The recipes of docs/RUN.md for users of libfaketime."""

    def test_clocks_that_stand_still(self):
        script = self.file("s", "openhz,64,1000000000,1,0,1000000000,0\nsuspend,0\n")
        # a wait for a time never ends, and one for a pipe does
        text = f"sleep 1 & {CLOCKS}; echo x | (read line; {CLOCKS}); kill $!"
        for counter in [[], STILL]:
            out = self.run_on(*counter, "--script", script, "--check", "--", "bash", "-c", text)
            real, mono = map(int, out.splitlines()[0].split())
            self.assertEqual(out, f"{10**18 + mono} {mono}\n" * 2)
            self.assertTrue(real and not (counter and mono), out)

    def test_a_lead_from_one_time_to_another(self):
        script = self.file("s", "openhz,64,1000000000,1,0,1000000000,0\n"
                                "step,10000000000,172800,0\nstep,20000000000,-172800,0\n")
        text = f"sleep 9; {CLOCKS}; sleep 9; {CLOCKS}; sleep 9; {CLOCKS}"
        out = self.run_on(*STILL, "--script", script, "--check", "--", "sh", "-c", text)
        self.assertEqual([int(line.split()[0]) - 10**18 for line in out.splitlines()],
                         [9 * SECOND + 1, 172818 * SECOND + 2, 27 * SECOND + 3])

    def test_only_some_programs(self):
        before = time.time_ns()
        out = self.run_on("--node", "fake,start=+2d", "--", "sh", "-c",
                          f"{CLOCKS}; {TKRUN} node fake -- {CLOCKS}")
        own, fake = [int(line.split()[0]) for line in out.splitlines()]
        after = time.time_ns()
        self.assertTrue(before <= own <= after)
        self.assertTrue(own + 172800 * SECOND <= fake <= after + 172800 * SECOND)
