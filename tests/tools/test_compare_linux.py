"""ports/linux/compare: the table of two kernels' consoles, and what it reports."""
from tools import Case

TABLE = "| test | unmodified | on the library |\n|---|---|---|\n"


class Compare(Case):
    def compare(self, unmodified, tkcore, *stored, options=()):
        """Compares consoles with these lines, and returns the status, the table and the faults."""
        consoles = self.room / "consoles"
        consoles.mkdir(exist_ok=True)
        for kernel, text in ("unmodified", unmodified), ("tkcore", tkcore):
            (consoles / f"console.{kernel}.a").write_text(text, encoding="utf-8")
        words = []
        if stored:
            words = [self.room / "stored.md"]
            words[0].write_text(stored[0], encoding="utf-8")
        status, said, errors = self.run_tool("ports/linux/compare", *options, consoles, *words)
        self.assertTrue(said.startswith(TABLE), said)
        return status, said.removeprefix(TABLE), errors.replace("compare: ", "")

    def test_the_table_has_the_results_of_both(self):
        text = "noise\nRESULT a -t 3 = 0\n[    0.3] RESULT cost of f() = 100\nRESULT a = \n"
        self.assertEqual((0, "| a -t 3 | 0 | 0 |\n| cost of f() | 100 | 100 |\n", ""),
                         self.compare(text, text))

    def test_only_a_failure_that_the_unmodified_kernel_has_not_is_a_fault(self):
        self.assertEqual((0, "| a | 1 | 0 |\n| b | 4 | 4 |\n", ""),
                         self.compare("RESULT a = 1\nRESULT b = 4\n", "RESULT a = 0\nRESULT b = 4\n"))
        why = "a: passes in the unmodified kernel, and ends with 1 in ours\n"
        self.assertEqual((1, "| a | 0 | 1 |\n", why),
                         self.compare("RESULT a = 0\n", "RESULT a = 1\n"))

    def test_a_missing_result_is_a_fault(self):
        why = "a: only one kernel has a result\n"
        for one, other in ("RESULT a = 0\n", ""), ("", "RESULT a = 1\n"):
            self.assertEqual((1, why), self.compare(one, other)[::2])
        self.assertEqual((1, "there are no results\n"), self.compare("", "")[::2])

    def test_different_answers_are_faults(self):
        text = "RESULT a = 0\nANSWER 0 set 1 = 0\nANSWER 1 set -1 = -22\n"
        self.assertEqual((0, "| a | 0 | 0 |\n", ""), self.compare(text, text))
        why = "ANSWER 1 set -1 = -5; the unmodified kernel: ANSWER 1 set -1 = -22\n"
        self.assertEqual((1, why), self.compare(text, text.replace("-22", "-5"))[::2])
        why = "None; the unmodified kernel: ANSWER 1 set -1 = -22\n"
        self.assertEqual((1, why), self.compare(text, text.partition("ANSWER 1")[0])[::2])

    def cost(self, call, cost):
        return self.compare(f"RESULT cost of {call} = 100\n", f"RESULT cost of {call} = {cost}\n")[::2]

    def test_each_call_has_its_limit(self):
        for call, most in (("f()", 115), ("ktime_get_mono_fast_ns()", 150),
                           ("update_wall_time()", 160)):
            self.assertEqual((0, ""), self.cost(call, most))
            why = f"cost of {call}: {most + 1} is more than {most} % of 100\n"
            self.assertEqual((1, why), self.cost(call, most + 1))
        self.assertEqual((0, ""), self.cost("update_wall_time(), the most of 400", 900))

    def test_results_are_compared_with_the_stored_ones(self):
        text = "RESULT a = 4\nRESULT cost of f() = 100\n"
        table = f"Text | of | a page\n\n{TABLE}| a | 4 | 4 |\n| cost of f() | 100 | 96 |\n"
        self.assertEqual((0, ""), self.compare(text, text, table)[::2])
        why = "a: ['4', '4'], stored ['1', '4']\n"
        self.assertEqual((1, why), self.compare(text, text, table.replace("a | 4", "a | 1"))[::2])
        why = "cost of f(): ['100', '100'], stored ['100', '95']\n"
        self.assertEqual((1, why), self.compare(text, text, table.replace("96", "95"))[::2])
        why = "a: not stored\n"
        self.assertEqual((1, why), self.compare(text, text, table.replace("| a | 4 | 4 |\n", ""))[::2])
        why = "b: stored, but not run\n"
        self.assertEqual((1, why), self.compare(text, text, f"{table}| b | 0 | 0 |\n")[::2])
        part = {"options": ["--part"]}
        self.assertEqual((0, ""), self.compare(text, text, f"{table}| b | 0 | 0 |\n", **part)[::2])
        why = "a: not stored\n"
        self.assertEqual((1, why), self.compare(
            text, text, table.replace("| a | 4 | 4 |\n", ""), **part)[::2])
