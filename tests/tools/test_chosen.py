"""Which wrong edits are tried: those that a crate's content chooses, or all of changed crates."""
import shutil
import subprocess

from tools import LOGIC, Case

SOURCE = "pub fn first() -> u64 {\n    1\n}\n"
EDIT = "file: src/lib.rt\nold:     1\nnew:     {}\n"
MANY = 9


class Chosen(Case):
    def setUp(self):
        super().setUp()
        self.stand_in("rt", f'echo "rattle-kit-99z logic {LOGIC}"')
        self.stand_in("rattle", 'for word; do\n'
                                'case $word in --crate-name=*) name=${word#*=} ;; esac\ndone\n'
                                'echo "fn $name::first: not proved"\nexit 1')
        self.top = self.copy()
        self.write("crates.txt", "# The product\nlow:\nhigh:\nbare:\n")
        self.write("crates/bare/src/lib.rt", SOURCE)
        for crate in "low", "high":
            self.write(f"crates/{crate}/src/lib.rt", SOURCE)
            for number in range(MANY):
                self.write(f"crates/{crate}/must-fail-together/e{number}.edit",
                           EDIT.format(number + 2))

    def write(self, name, text):
        path = self.top / name
        path.parent.mkdir(parents=True, exist_ok=True)
        path.write_text(text, encoding="utf-8")

    def git(self, *words):
        who = ["-c", "user.name=a", "-c", "user.email=a@example"]
        subprocess.run(["git", *who, *words], cwd=self.top, check=True, capture_output=True)

    def commit(self):
        self.git("add", "-A")
        self.git("commit", "-m", "A commit", "--allow-empty")

    def tried(self, *words, top=None):
        """Returns the edits that a run tries, sorted."""
        status, said, errors = self.run_tool("tools/must_fail", *words, top=top or self.top)
        self.assertEqual((0, ""), (status, errors), said)
        return sorted(line.partition(":")[0] for line in said.splitlines() if ".edit: " in line)

    def changed(self, base="HEAD"):
        """Returns the line on the crates that differ from a revision, and the crates tried."""
        status, said, errors = self.run_tool("tools/must_fail", "--changed", base, top=self.top)
        self.assertEqual((0, ""), (status, errors), said)
        edits = [line.partition(":")[0] for line in said.splitlines() if ".edit: " in line]
        counts = {it: sum(edit.startswith(f"{it}/") for edit in edits) for it in ("low", "high")}
        return said.splitlines()[0].removeprefix(f"must_fail: since {base}: "), counts

    def seed(self, top):
        status, said, errors = self.run_tool("tools/content.py", top=top)
        self.assertEqual((0, ""), (status, errors))
        return int(said)

    def test_the_same_content_chooses_the_same_in_two_commits_and_in_no_repository(self):
        first, seed = self.tried(), self.seed(self.top)
        self.assertEqual(2, len(first))
        self.git("init")
        self.commit()
        self.assertEqual((first, seed), (self.tried(), self.seed(self.top)))
        self.write("README.md", "a page\n")
        self.write("crates/low/README.md", "a page\n")
        self.commit()
        self.assertEqual((first, seed), (self.tried(), self.seed(self.top)))
        clone = self.room / "clone"
        self.git("clone", "-q", ".", str(clone))
        self.assertEqual((first, seed), (self.tried(top=clone), self.seed(clone)))
        shutil.rmtree(clone / ".git")
        self.assertEqual((first, seed), (self.tried(top=clone), self.seed(clone)))

    def test_one_changed_byte_may_choose_others_in_its_crate_alone(self):
        first, seeds, found = self.tried(), set(), set()
        for part in "src/a.rt", "specs/a.antt", "proofs/a.antt", "must-fail-together/a.txt":
            for byte in "xy":
                self.write(f"crates/low/{part}", byte)
                tried = self.tried()
                self.assertEqual(first[0], tried[0])
                seeds.add(self.seed(self.top))
                found.add(tried[1])
        self.assertGreater(len(found), 2)
        # (the seed of random scripts depends on sources only)
        self.assertEqual(2, len(seeds))

    def test_no_other_file_changes_a_choice(self):
        first, seed = self.tried(), self.seed(self.top)
        for name in "out/lib", "must-fail/e.edit", "README.md", "Cargo.toml":
            self.write(f"crates/low/{name}", "a byte")
        self.assertEqual((first, seed), (self.tried(), self.seed(self.top)))

    def test_all_edits_of_exactly_the_changed_crates_are_tried(self):
        self.git("init")
        self.commit()
        self.assertEqual(("no crate with edits", {"low": 0, "high": 0}), self.changed())
        self.write("crates/low/README.md", "a page\n")
        self.write("docs/page.md", "a page\n")
        self.assertEqual(("no crate with edits", {"low": 0, "high": 0}), self.changed())
        self.write("crates/low/src/lib.rt", SOURCE + "\n")
        self.assertEqual(("low", {"low": MANY, "high": 0}), self.changed())
        self.commit()
        self.assertEqual(("low", {"low": MANY, "high": 0}), self.changed("HEAD~1"))
        self.assertEqual(("no crate with edits", {"low": 0, "high": 0}), self.changed())

    def test_a_new_definition_an_added_and_a_deleted_edit_change_a_crate(self):
        self.git("init")
        self.commit()
        self.write("crates/high/specs/Rule.antt", "a definition\n")
        self.assertEqual(("high", {"low": 0, "high": MANY}), self.changed())
        self.git("add", "-A")
        self.assertEqual(("high", {"low": 0, "high": MANY}), self.changed())
        self.commit()
        self.write("crates/low/must-fail-together/added.edit", EDIT.format(99))
        self.assertEqual(("low", {"low": MANY + 1, "high": 0}), self.changed())
        self.commit()
        (self.top / "crates/low/must-fail-together/added.edit").unlink()
        self.assertEqual(("low", {"low": MANY, "high": 0}), self.changed())
        self.write("crates/high/proofs/Law.antt", "a lemma\n")
        self.assertEqual(("low high", {"low": MANY, "high": MANY}), self.changed())

    def test_a_moved_file_changes_both_crates(self):
        self.write("crates/low/specs/Rule.antt", "a definition of more than a few words\n" * 9)
        self.git("init")
        self.commit()
        (self.top / "crates/high/specs").mkdir()
        self.git("mv", "crates/low/specs/Rule.antt", "crates/high/specs/Rule.antt")
        self.assertEqual(("low high", {"low": MANY, "high": MANY}), self.changed())

    def test_a_changed_crate_without_edits_is_named(self):
        self.git("init")
        self.commit()
        self.write("crates/bare/src/lib.rt", SOURCE + "\n")
        self.write("crates/low/src/lib.rt", SOURCE + "\n")
        self.assertEqual(("low; without edits: bare", {"low": MANY, "high": 0}), self.changed())

    def test_an_unknown_revision_is_an_error(self):
        self.git("init")
        self.commit()
        status, said, errors = self.run_tool("tools/must_fail", "--changed", "none", top=self.top)
        self.assertEqual((2, ""), (status, said))
        self.assertEqual("must_fail: error: fatal: bad revision 'none'", errors.splitlines()[-1])
