"""--seed: what a thread finds after another one was let go (turn_eager.c, turn_sent.c), or without a
turn (turn_alone.c)."""
from runs import STILL, RunTest, program


class Eager(RunTest):
    def shown(self, name, how, seed):
        words = self.run_on(*STILL, "--seed", seed, "--", program(name), how,
                            self.folder / "file").split()
        self.assertEqual(words.pop(), how)
        return words

    def check(self, name, how, *words):
        for seed in range(3):
            self.assertEqual(self.shown(name, how, seed), [*words])

    def check_reads(self, how, total):
        """A writer waits for space. How much of that each read finds depends on the seed only."""
        found = set()
        for seed in range(3):
            sizes = self.shown("turn_eager", how, seed)
            self.assertEqual(sum(map(int, sizes)), total)
            self.assertLessEqual(max(map(int, sizes)), 10000)
            self.assertEqual(self.shown("turn_eager", how, seed), sizes)
            found.add(tuple(sizes))
        self.assertGreater(len(found), 1)

    def test_reads_of_a_full_pipe(self):
        self.check_reads("pipe", 2 * 300000)

    def test_reads_of_a_full_connection(self):
        self.check_reads("socket", 4 * 300000)
        for seed in range(3):  # what is left then depends on when the writer has got its turn
            rest = self.shown("turn_eager", "rest", seed)
            self.assertEqual(self.shown("turn_eager", "rest", seed), rest)

    def test_a_message_waits_for_the_space_of_one_that_is_taken(self):
        self.check("turn_eager", "messages", "full")

    def test_a_lock_of_a_file_goes_to_who_waits_for_it(self):
        self.check("turn_eager", "locks", *["taken"] * 6)

    def test_who_waits_longest_gets_the_first_datagram(self):
        self.check("turn_eager", "receivers", *["ab"] * 8)

    def test_a_killed_process_has_closed_its_files(self):
        self.check("turn_sent", "killed", *["0"] * 6)

    def test_a_killed_process_of_several_threads_has_ended(self):
        self.check("turn_sent", "ended", *["1"] * 20)

    def test_a_handler_runs_after_a_signal_of_a_thread(self):
        self.check("turn_sent", "handled", *["0"] * 2)

    def test_a_started_program_has_closed_the_files_that_it_does_not_inherit(self):
        self.check("turn_sent", "started", *["0"] * 24)

    def test_a_thread_without_a_turn_waits_for_it_at_its_next_call(self):
        for seed in range(2):
            shown = self.run_on(*STILL, "--seed", seed, "--", program("turn_alone"))
            self.assertEqual(shown.split(), ["0"] * 11)
