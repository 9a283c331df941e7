"""What a check's status and lines say of the wrong edits that it was tried with."""
import shutil

from tools import LOGIC, Case

SOURCE = """impl Clock {
    pub fn first(&self) -> u64 {
        1
    }

    pub fn second(&self) -> u64 {
        2
    }
}
"""
FIRST = "file: src/lib.rt\nold:         1\nnew:         3\n"
SECOND = "file: src/lib.rt\nold:         2\nnew:         4\n"


class MustFail(Case):
    def setUp(self):
        super().setUp()
        self.stand_in("rt", f'echo "rattle-kit-99z logic {LOGIC}"')
        self.top = self.copy()
        (self.top / "crates.txt").write_text("low:\n", encoding="utf-8")
        self.list_functions()
        self.write("src/lib.rt", SOURCE)

    def write(self, name, text):
        path = self.top / "crates" / "low" / name
        path.parent.mkdir(parents=True, exist_ok=True)
        path.write_text(text, encoding="utf-8")

    def list_functions(self, *lines):
        """Lists functions without a wrong body, each with its reason."""
        path = self.top / "tools" / "edits" / "no_wrong_body.txt"
        path.write_text("".join(f"{it}\n" for it in lines), encoding="utf-8")

    def tried(self, rattle):
        """Tries the edits with a rattle of this script. Returns the status and the sorted lines."""
        self.stand_in("rattle", f"echo \"$*\" >>{self.room}/calls\n{rattle}")
        status, said, errors = self.run_tool("tools/must_fail", "--all", "low",
                                             top=self.top)
        self.assertEqual("", errors)
        return status, sorted(said.splitlines())

    def calls(self):
        return (self.room / "calls").read_text(encoding="utf-8").splitlines()

    def test_edits_whose_functions_are_named_are_refused_in_one_check(self):
        self.write("must-fail-together/first.edit", FIRST)
        self.write("must-fail-together/second.edit", SECOND)
        found = self.tried('echo "fn low::Clock::first: not proved"\n'
                           'echo "fn low::Clock::second: no proof, as search found none"\nexit 1')
        self.assertEqual((0, ["low/first.edit: refused", "low/second.edit: refused",
                              "must_fail: 2 edits of 1 crates refused, 0 not"]), found)
        self.assertEqual(1, len(self.calls()))
        self.assertIn("--only=Clock::first --only=Clock::second", self.calls()[0])

    def test_a_conversion_is_named_by_both_of_its_types(self):
        self.write("src/lib.rt", "".join(
            f"impl From<{it}> for Fault {{\n    fn from(_: {it}) -> Fault {{\n        {number}\n"
            "    }\n}\n" for number, it in enumerate(["AllocError", "io::Error", "&T"])))
        self.write("must-fail-together/first.edit", FIRST.replace(" 1", " 0"))
        self.write("must-fail-together/second.edit", FIRST)
        self.tried('echo "fn low::fault::FaultFromAllocError::from: not proved"\n'
                   'echo "fn low::fault::FaultFromIoError::from: not proved"\nexit 1')
        only = [word for it in self.calls() for word in it.split() if word.startswith("--only=")]
        self.assertEqual(["--only=FaultFromAllocError::from", "--only=FaultFromIoError::from"],
                         sorted(only))

    def test_an_edit_that_is_not_named_is_tried_in_a_check_of_the_whole_crate(self):
        self.write("must-fail-together/first.edit", FIRST)
        found = self.tried('case "$*" in *--only*) exit 0 ;; esac\n'
                           'echo "fn low::Clock::other: not proved"\nexit 1')
        self.assertEqual((0, ["low/first.edit: refused, in a check of the whole crate",
                              "must_fail: 1 edits of 1 crates refused, 0 not"]), found)
        self.assertEqual(2, len(self.calls()))

    def test_an_edit_with_which_the_crate_is_proved_is_not_refused(self):
        self.write("must-fail-together/first.edit", FIRST)
        found = self.tried("exit 0")
        self.assertEqual((1, ["NOT REFUSED: crates/low/must-fail-together/first.edit",
                              "low/first.edit: NOT REFUSED: the crate is still proved with it",
                              "must_fail: 0 edits of 1 crates refused, 1 not"]), found)

    def test_a_check_that_names_no_function_judges_nothing(self):
        self.write("must-fail-together/first.edit", FIRST)
        for status in 1, 2, 3:
            with self.subTest(status):
                ended, said = self.tried(f"echo 'error: expected an expression'\nexit {status}")
                self.assertEqual(1, ended)
                why = f"low/first.edit: NOT REFUSED: the check judged nothing (status {status}):"
                self.assertIn(why, said)

    def test_functions_of_which_one_calls_the_other_are_tried_in_two_checks(self):
        self.write("src/lib.rt", SOURCE.replace("        1\n", "        1 + self.second()\n"))
        self.write("must-fail-together/first.edit", FIRST.replace("1\n", "1 +\n", 1)
                   .replace("3\n", "3 +\n"))
        self.write("must-fail-together/second.edit", SECOND)
        status, said = self.tried('echo "fn low::Clock::first: not proved"\n'
                                  'echo "fn low::Clock::second: not proved"\nexit 1')
        self.assertEqual((0, 3), (status, len(said)))
        self.assertEqual(2, len(self.calls()))

    def ended_ci(self, script):
        """Runs `rt ci` by this script in a copy, and returns the status and the last line."""
        self.stand_in("rt", f'[ "$1" != version ] || exec echo "rattle-kit-99z logic {LOGIC}"\n'
                            f'[ "$1" != doc ] || exec echo {self.room}/kit/START-HERE.md\n'
                            f'echo "$*" >>{self.room}/calls\n{script}')
        copy = self.room / "proofs"
        shutil.copytree(self.top, copy)
        status, said, errors = self.run_tool("tools/must_fail", "--ci", str(copy), top=self.top)
        self.assertEqual("", errors)
        self.assertEqual(["ci"], self.calls())
        (self.room / "calls").unlink()
        shutil.rmtree(copy)
        return status, said.splitlines()[-1]

    def test_rt_ci_must_count_all_crates_and_each_edit_must_be_refused(self):
        self.write("must-fail-together/first.edit", FIRST)
        self.stand_in("rattle", 'echo "fn low::Clock::first: not proved"\nexit 1')
        refused = "must_fail: 1 edits of 1 crates refused, 0 not"
        too_few = "must_fail: rt ci didn't pass 1 crates"
        for last, ended, wanted in [("1 passed, 0 failed", 0, (0, refused)),
                                    ("0 passed, 0 failed", 0, (1, too_few)),
                                    ("1 passed, 1 failed", 1, (1, too_few)),
                                    ("nothing was judged", 2, (2, too_few)),
                                    ("nothing was judged", 0, (1, too_few))]:
            with self.subTest(last):
                self.assertEqual(wanted, self.ended_ci(f"echo '{last}'\nexit {ended}"))
        self.stand_in("rattle", "exit 0")
        missed = "must_fail: 0 edits of 1 crates refused, 1 not"
        self.assertEqual((1, missed), self.ended_ci("echo '1 passed, 0 failed'"))

    def test_edits_are_tried_as_soon_as_rt_ci_has_proved_the_crates_below(self):
        (self.top / "crates.txt").write_text("low:\nhigh: low\n", encoding="utf-8")
        for crate in "low", "high":
            self.write(f"../{crate}/src/lib.rt", SOURCE)
            self.write(f"../{crate}/must-fail-together/first.edit", FIRST)
        self.stand_in("rattle", f"""
            for word; do case $word in
                --crate-name=*) name=${{word#*=}} ;;
                --extern=low=*) [ -d "${{word##*=}}" ] || exit 2 ;;
            esac; done
            touch {self.room}/tried.$name
            echo "fn $name::Clock::first: not proved"
            exit 1""")
        script = f"""
            mkdir -p crates/low/out/rlib/low.rlib
            until [ -e {self.room}/tried.low ]; do sleep 0.1; done
            sleep 1
            [ ! -e {self.room}/tried.high ] || exit 7
            echo 'rt: low proved'
            until [ -e {self.room}/tried.high ]; do sleep 0.1; done
            echo 'rt: high proved'
            echo '2 passed, 0 failed'"""
        self.assertEqual((0, "must_fail: 2 edits of 2 crates refused, 0 not"),
                         self.ended_ci(script))

    def test_an_edit_that_no_longer_applies_is_listed(self):
        self.write("must-fail-together/first.edit", FIRST.replace("1\n", "5\n", 1))
        status, _, errors = self.run_tool("tools/must_fail", "--apply", top=self.top)
        self.assertEqual((1, "crates/low/must-fail-together/first.edit: its old text is in "
                             "src/lib.rt 0 times, and not once\n"), (status, errors))

    def listed(self, *clauses, contract="    ensures value { result ≡ one }"):
        """Returns the errors of `--apply` for an edit of `first` with these lines `clause:`."""
        head = "    pub fn first(&self) -> u64 {"
        self.write("src/lib.rt", SOURCE.replace(head, f"{head[:-2]}\n    {contract}\n    {{"))
        lines = "".join(f"clause: {it}\n" for it in clauses)
        self.write("must-fail-together/first.edit", lines + FIRST)
        status, _, errors = self.run_tool("tools/must_fail", "--apply", top=self.top)
        self.assertEqual(1 if errors else 0, status)
        return errors.removeprefix("crates/low/must-fail-together/first.edit: ")

    def test_a_clause_is_looked_up_in_the_contract_of_the_function_that_is_changed(self):
        self.assertEqual("", self.listed("value"))
        self.assertEqual("no clause one\n", self.listed("one"))
        self.assertEqual("", self.listed("one", contract="    ensures { result ≡ one }"))
        self.assertEqual("no clause two\n", self.listed("two"))

    def test_a_clause_of_another_function_or_type_is_named_with_it(self):
        self.assertEqual("", self.listed("value of first"))
        self.assertEqual("no clause value of second\n", self.listed("value of second"))
        self.write("src/clock.rt", "impl Model for Clock {\n    ghost invariant = { λ c. c };\n}\n")
        self.assertEqual("", self.listed("invariant of Clock"))
        self.assertEqual("no clause view of Clock\n", self.listed("view of Clock"))

    def test_each_edit_of_a_crate_names_a_clause_or_none_does(self):
        self.assertEqual("", self.listed())
        self.write("must-fail-together/second.edit", SECOND)
        self.assertEqual("", self.listed())
        self.assertEqual("crates/low/must-fail-together/second.edit: it names no clause\n",
                         self.listed("value"))

    def gaps(self, *more):
        """Returns the errors of `--apply` with the edit `first` if `low` is of the product."""
        (self.top / "crates.txt").write_text("# The product\nlow:\n# Tests\n", encoding="utf-8")
        self.write("must-fail-together/first.edit", FIRST)
        status, _, errors = self.run_tool("tools/must_fail", "--apply", *more, top=self.top)
        self.assertEqual(1 if errors else 0, status)
        return errors.splitlines()

    def test_each_public_function_of_the_product_has_an_edit_of_its_body(self):
        second = "crates/low/src/lib.rt: no edit changes the body of low::Clock::second"
        self.assertEqual([second], self.gaps())
        self.assertEqual([second], self.gaps("low"))
        self.write("must-fail-together/second.edit", SECOND)
        self.assertEqual([], self.gaps())
        for head in "pub const fn second", 'pub extern "C" fn second', "pub fn second":
            with self.subTest(head):
                self.write("src/lib.rt", SOURCE.replace("pub fn second", head))
                self.write("must-fail-together/second.edit", f"file: src/lib.rt\nold: {head}\n"
                                                             f"new: #[inline] {head}\n")
                self.assertEqual([second], self.gaps())
        for head in "fn second", "pub(crate) fn second":
            with self.subTest(head):
                self.write("src/lib.rt", SOURCE.replace("pub fn second", head))
                (self.top / "crates/low/must-fail-together/second.edit").unlink(missing_ok=True)
                self.assertEqual([], self.gaps())

    def test_an_edit_may_put_another_body_in_front(self):
        clause = "ensures { result ≡ record { two = 2 } }"
        self.write("src/lib.rt", SOURCE.replace("second(&self) -> u64 {",
                                                f"second(&self) -> u64\n        {clause}\n    {{"))
        self.write("must-fail-together/second.edit", f"file: src/lib.rt\nold: {clause}\n"
                                                     f"new: {clause} {{ 4 }} fn third() -> u64\n")
        self.assertEqual([], self.gaps())

    def test_a_list_names_the_functions_that_have_no_wrong_body(self):
        self.list_functions("# a comment", "low::Clock::second: a law")
        self.assertEqual([], self.gaps())
        self.assertEqual([], self.gaps("low"))
        self.list_functions("low::Clock::second: a law", "low::Clock::first: a law",
                            "low::Clock::third: a law", "lower::second: a law")
        listed = "tools/edits/no_wrong_body.txt: low"
        self.assertEqual([f"{listed}::Clock::first: an edit changes its body",
                          f"{listed}::Clock::third: it isn't a public function of the product",
                          f"{listed}er::second: it isn't a public function of the product"],
                         self.gaps())
        self.list_functions("low::Clock::second:")
        self.assertEqual([f"{listed}::Clock::second: there is no reason"], self.gaps())
