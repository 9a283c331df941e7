"""--seed: what calls return that lock, wait and read, and that equal seeds make equal results."""
import shutil
import unittest

from runs import STILL, RunTest, program


class Calls(RunTest):
    def test_the_results_of_locks_threads_and_processes(self):
        for seed in range(2):
            for name in ("turn_locks", "turn_conds"):
                self.assertEqual(self.run_on(*STILL, "--seed", seed, "--", program(name)), "")

    def test_the_programs_of_other_tests(self):
        says_nothing = ["cancelled", "masks", "rests", "left alone", "again", "far", "futexes",
                        "interrupted"]
        expected = dict.fromkeys(says_nothing, "")
        expected |= {f"wakes {how}": "102\n" for how in ("jump", "cancel", "fork", "reset")}
        expected |= {f"pollers {kind} 40 threads": "ended 40, early 0, late 0\n"
                     for kind in ("poll", "epoll", "sem", "cond", "sleep")}
        expected |= {"exits": "bye\n", "exchanges": "exchanges 20, took 0\n"}
        for words, output in expected.items():
            with self.subTest(words):
                name, *rest = words.split()
                self.assertEqual(self.run_on(*STILL, "--start", 10**9, "--seed", 3, "--",
                                             program(name), *rest), output)

    def test_waits_take_the_same_time(self):
        for name in ("waits", "lock_waits", "timer_waits", "others"):
            with self.subTest(name):
                self.assertEqual(self.run_on(*STILL, "--seed", 3, "--", program(name)),
                                 self.run_on(*STILL, "--", program(name)))

    def test_who_gets_a_lock_that_many_want(self):
        # with time-outs, between processes, and while the thread that unlocks takes it again
        shown = {}
        for seed in [1, 2] * 2:
            text = self.run_on(*STILL, "--seed", seed, "--", program("turn_order"))
            self.assertEqual([len(line.split()) for line in text.splitlines()],
                             [60, 60, 60, 48, 48])
            self.assertEqual(shown.setdefault(seed, text), text)
        self.assertNotEqual(shown[1], shown[2])

    def test_who_gets_a_signal(self):
        for seed in range(4):
            self.assertEqual(self.run_on(*STILL, "--seed", seed, "--", program("turn_signals")), "")

    def test_what_a_thread_finds_at_its_turn(self):
        # it was woken by the first of several writes
        shown = {}
        for seed in [1, 2, 3] * 2:
            text = self.run_on(*STILL, "--seed", seed, "--", program("turn_files"))
            self.assertEqual((len(text.splitlines()), "wrong" in text), (13, False), text)
            self.assertEqual(shown.setdefault(seed, text), text)
        self.assertEqual(len(set(shown.values())), 3)
        # not only the first bytes and the first file
        self.assertIn("4 4 ", shown[1] + shown[2])
        self.assertIn("7 7 ", shown[1] + shown[2])

    def test_handlers_at_any_moment(self):
        # as SIGCHLD: while the pipe of a child that ends wakes its reader, and after a kill
        for call in ("read", "kill"):
            shown = {self.run_on(*STILL, "--seed", 3, "--", program("turn_steps"), call, first)
                     for first in (0, 40, 80)}
            with self.subTest(call):
                self.assertEqual(len(shown), 1)
                self.assertEqual(shown.pop().count("."), 125)

    @unittest.skipUnless(shutil.which("bash"), "bash isn't installed")
    def test_children_of_a_shell(self):
        # their ends come by a signal that is handled, while others run
        text = ("f() { for i in 1 2 3 4 5; do x=$(echo $1; date +%s | cat); echo $1 $i $x; done; }; "
                "(f a) & (f b) & (f c) & wait")
        shown = {self.run_on(*STILL, "--start", 5, "--seed", 1, "--", "bash", "-c", text)
                 for _ in range(6)}
        self.assertEqual(len(shown), 1)
        self.assertEqual(len(shown.pop().splitlines()), 15)
