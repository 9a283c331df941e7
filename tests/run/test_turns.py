"""--seed: one thread runs at a time, so the same seed makes the same order of events."""
from runs import STILL, TKRUN, RunTest, program

RUNS, SEEDS = 6, 4
NODES = ["--node", "a", "--node", "b,error-ppm=20"]


class Turns(RunTest):
    def turns(self, seed, *options):
        """Runs turns.c on two nodes. Returns the events in their order, what the program prints, and
        the records."""
        folder = self.folder
        words = "; ".join(f"{TKRUN} node {name} -- {program('turns')} {name} {folder}/order "
                          f">{folder}/{name} & P=\"$P $!\"" for name in "ab").replace("&;", "&")
        self.run_on(*STILL, "--start", 5, "--seed", seed, *NODES, "--record", folder / "r", *options,
                    "--", "sh", "-c", f"{words}; wait $P")
        made = sorted(path for path in folder.iterdir())
        texts = {path.name: path.read_text() for path in made}
        for path in made:
            path.unlink()
        return texts

    def test_the_same_seed_makes_the_same_run(self):
        first = self.turns(1, "--check")
        self.assertEqual(len(first["order"].splitlines()), 2 * 2 * 4 * 24)
        self.assertEqual(sorted(first), ["a", "b", "order", "r", "r.a", "r.b", "r.nodes"])
        for _ in range(RUNS - 1):
            self.assertEqual(self.turns(1), first)

    def test_other_seeds_make_other_runs(self):
        orders = {self.turns(seed)["order"] for seed in range(SEEDS)}
        self.assertEqual(len(orders), SEEDS)

    def test_each_thread_of_each_process_makes_its_steps_in_order(self):
        steps = {}
        for line in self.turns(7)["order"].splitlines():
            name, thread, step, *_ = line.split()
            steps.setdefault((name, thread), []).append(int(step))
        self.assertEqual(len(steps), 16)
        for found in steps.values():
            self.assertEqual(found, list(range(24)))

    def test_the_order_depends_on_the_seed_also_between_processes(self):
        # six processes wait for the same time, and append their number
        text = f"for i in 1 2 3 4 5 6; do (sleep 1; echo $i >>{self.folder}/order) & done; wait"
        orders = {}
        for seed in list(range(8)) * 2:
            self.run_on(*STILL, "--seed", seed, "--", "sh", "-c", text)
            order = (self.folder / "order").read_text()
            (self.folder / "order").unlink()
            self.assertEqual(sorted(order.split()), list("123456"))
            self.assertEqual(orders.setdefault(seed, order), order)
        self.assertGreater(len(set(orders.values())), 4)

    def test_a_run_without_a_seed_loads_no_library_of_turns(self):
        shown = self.run_on(*STILL, "--", "sh", "-c", "echo $LD_PRELOAD; ls $TKRUN")
        self.assertNotIn("turns", shown)
        shown = self.run_on(*STILL, "--seed", 1, "--", "sh", "-c", "echo $LD_PRELOAD; ls $TKRUN")
        self.assertRegex(shown.splitlines()[0], "^/.*/libtkrun-turns.so:/.*/libtkrun.so")
        self.assertIn("turns", shown.splitlines())
