"""Faults in what `tkrun merge` reads: each has one sentence."""
import os
import subprocess

from runs import STILL, TKRUN, RunTest, call, program

SECOND = 10**9
CLOCKS = program("nodes_clocks")


class Faults(RunTest):
    def setUp(self):
        super().setUp()
        self.record = self.folder / "r"
        run = self.start("--quiet", *STILL, "--start", 5, "--uptime", 1, "--node", "a", "--record",
                         self.record, "--", TKRUN, "node", "a", "--", CLOCKS, SECOND)
        self.assertEqual((run.returncode, run.stderr), (0, ""))

    def refuse(self, sentence, *words, status=2, **options):
        run = call([TKRUN, "merge", *(words or [self.record])], **options)
        self.assertEqual((run.returncode, run.stdout if "stdout" not in options else ""),
                         (status, ""))
        self.assertEqual(run.stderr, f"tkrun: {sentence}\n")

    def test_arguments_and_files(self):
        self.assertEqual(call([TKRUN, "merge", self.record]).returncode, 0)
        run = call([TKRUN, "merge"])
        self.assertEqual((run.returncode, run.stderr), (2, "tkrun: tkrun merge RECORD\n"))
        self.refuse("tkrun merge RECORD", self.record, "x")
        none = self.folder / "none"
        self.refuse(f"merge: cannot read '{none}.nodes': No such file or directory", none)
        (self.folder / "none.nodes").mkdir()
        self.refuse(f"merge: cannot read '{none}.nodes': Is a directory", none)
        os.remove(f"{self.record}.a")
        self.refuse(f"merge: cannot read '{self.record}.a': No such file or directory")
        with open("/dev/full", "w", encoding="ascii") as full:
            self.file("r.a", self.record.read_text())
            with subprocess.Popen([TKRUN, "merge", self.record], stdout=full,
                                  stderr=subprocess.PIPE, text=True) as run:
                error = run.communicate()[1]
        self.assertEqual((run.returncode, error),
                         (125, "tkrun: merge: cannot write: No space left on device\n"))

    def test_wrong_places(self):
        nodes = self.folder / "r.nodes"
        whole = nodes.read_text()
        number = "not a number in range"
        for line, sentence in {
                "a,1,1,1": "wrong number of fields", "a,1,1,1,0,0": "wrong number of fields",
                "a b,1,1,1,0": "not a name", f"{'a' * 32},1,1,1,0": "not a name",
                "nodes,1,1,1,0": "not a name", "a,-1,1,1,0": number, "a,1,x,1,0": number,
                "a,1,1,0,0": number, "a,1,1,18446744073709551616,0": number,
                "a,1,1,1,127": number, "a,1,1,1,0 ": number, "a,+1,1,1,0": number,
                "a, 1,1,1,0": number, "a,1,1,1,": number, "b,1,1,1,0": "the common counter isn't at 0 first, or goes "
                                                    "back"}.items():
            with self.subTest(line=line):
                nodes.write_text(f"{whole}{line}\n")
                self.refuse(f"merge: '{nodes}': record 4: {sentence}")
        back = "a,7,7,1,0\na,6,6,1,0\n"
        nodes.write_text(whole + back)
        self.refuse(f"merge: '{nodes}': record 5: the common counter isn't at 0 first, or goes "
                    "back")
        nodes.write_text(whole + "".join(f"n{i},0,0,1,0\n" for i in range(64)))
        self.refuse(f"merge: '{nodes}': record 67: too many nodes")
        missing = f"merge: '{nodes}' doesn't place the true time and the program's clocks"
        for text in ["", "true,0,0,1,0\n", ",0,0,1,0\na,0,0,1,0\n",
                     "true,0,0,1,0\na,0,0,1,0\n,0,0,1,0\n"]:
            nodes.write_text(text)
            self.refuse(missing)
        for text, number in [("a,0,1,1,0", 1), ("a,0,0,1,0\na,7,8,1,0", 2)]:
            nodes.write_text(f"true,0,0,1,0\n,0,0,1,0\n{text}\n")
            self.refuse(f"merge: '{nodes}': line {number} of the node 'a' isn't of the record "
                        f"'{self.record}.a'")

    def test_wrong_scripts(self):
        path = self.folder / "r.a"
        whole = path.read_text()
        opening = whole.splitlines()[0]
        for text, sentence in [
                ("", ": no record"), ("x\n", " record 1: not a valid opening"),
                (f"{opening}\nx,1\n", " record 2: unknown word"),
                (f"{opening}\nget,1\n", " record 2: wrong number of fields"),
                (f"{opening}\nadjtimex,1{',0' * 10}\n",
                 " record 2: adjtimex, but HZ isn't in the first record"),
                (f"{opening}\ncounter,1,64,16777216,24,0\n",
                 " record 2: tkrun can't change the counter"),
                (f'{opening}\nupdate,"1"\n',
                 " record 2: not a plain line: it has a quote or a byte order mark"),
                (opening.replace("openwords,", "openwords,1,"),
                 " record 1: wrong number of fields"),
                ("openwords,32,16777216,24,1,0,16777216,0,0,5000000000,0,0,0,0,0,10000\n",
                 " record 1: it isn't the start of a run")]:
            with self.subTest(text=text):
                path.write_text(text)
                self.refuse(f"merge: '{path}':{sentence}".replace("::", ":"))
        path.write_text(whole)
        later = self.file("r.a.2", whole)
        self.refuse(f"merge: '{later}': record 1: it doesn't continue the part before")
