"""The order in which the program's crates are proved, and what is left of a failure."""
from tools import LOGIC, Case

LISTING = "low:\nmiddle: low\nbeside: low\ntkcore: middle\n"
# writes what -o names, and the crate's name into the file calls
RATTLE = """
for word; do
    case $word in
    --crate-name=*) name=${word#*=} ;;
    -o=*) made=${word#*=} ;;
    esac
done
echo "$name" >>%s/calls
[ "$name" != "%s" ] || { echo "fn $name::f: not proved"; exit 1; }
mkdir -p "$(dirname "$made")"
case $made in *.rlib) mkdir "$made" ;; *) echo made >"$made" ;; esac
"""
LINK = r"""#!/bin/sh
while [ "$1" != -o ]; do shift; done
printf '#!/bin/sh\ncat\n' >"$2"
chmod +x "$2"
"""


class BuildProgram(Case):
    def setUp(self):
        super().setUp()
        kit = self.room / "kit"
        (kit / "bin").mkdir(parents=True)
        (kit / "bin" / "rattle-link").write_text(LINK, encoding="utf-8")
        (kit / "bin" / "rattle-link").chmod(0o755)
        self.stand_in("rt", f'[ "$1" = doc ] && exec echo "{kit}/START-HERE.md"\n'
                            f'echo "rattle-kit-99z logic {LOGIC}"')
        self.top = self.copy()
        (self.top / "crates.txt").write_text(LISTING, encoding="utf-8")
        for name in "low", "middle", "beside", "tkcore":
            root = "main.rt" if name == "tkcore" else "lib.rt"
            path = self.top / "crates" / name / "src" / root
            path.parent.mkdir(parents=True)
            path.write_text("\n", encoding="utf-8")
        (self.top / "crates" / "tkcore" / "stdin").write_text("a line\n", encoding="utf-8")

    def build(self, broken, *words):
        self.stand_in("rattle", RATTLE % (self.room, broken))
        return self.run_tool("tools/build_program", *words, top=self.top)

    def calls(self):
        return (self.room / "calls").read_text(encoding="utf-8").split()

    def test_the_crates_below_the_program_are_built_lowest_first(self):
        status, said, errors = self.build("none")
        self.assertEqual((0, ""), (status, errors))
        self.assertEqual(["low", "middle", "tkcore"], self.calls())
        self.assertEqual("a line", said.splitlines()[-1])
        self.assertTrue((self.top / "dist" / "bin" / "tkcore").is_file())

    def test_nothing_is_built_over_a_crate_that_is_not_proved(self):
        status, said, _ = self.build("middle")
        self.assertEqual(1, status)
        self.assertEqual(["low", "middle"], self.calls())
        self.assertIn("fn middle::f: not proved\nmiddle NOT PROVED in 0 s\n", said)
        self.assertFalse((self.top / "dist").exists())

    def test_kept_libraries_are_built_anew_only_after_a_change(self):
        kept = str(self.room / "kept")
        self.assertEqual(0, self.build("none", "--keep", kept)[0])
        self.assertEqual(0, self.build("none", "--keep", kept)[0])
        self.assertEqual(["low", "middle", "tkcore"], self.calls())
        changed = self.top / "crates" / "middle" / "src" / "lib.rt"
        changed.write_text("\n\n", encoding="utf-8")
        self.assertEqual(1, self.build("middle", "--keep", kept)[0])
        self.assertEqual(["low", "middle", "tkcore", "middle"], self.calls())
