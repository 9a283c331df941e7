"""How a library for C and those below it are proved for the archives of both backends."""
import fcntl
import time
from concurrent import futures

from tools import LOGIC, Case

# writes what -o names, and a line into the file calls: the command, the crate and some arguments
RATTLE = """
command=$1 more=
for word; do
    case $word in
    --crate-name=*) name=${word#*=} ;;
    --crate-type=*|--backend=*|--target=*) more="$more $word" ;;
    --logic-built=*) more="$more logic" ;;
    --incremental=*) more="$more over ${word##*/}" ;;
    -o=*) made=${word#*=} ;;
    esac
done
echo "$command $name$more" >>%s/calls
[ "$name" != "%s" ] || { echo "fn $name::f: not proved"; exit 1; }
case $made in *.a) echo made >"$made" ;; *) mkdir -p "$made" ;; esac
"""


class Archive(Case):
    def setUp(self):
        super().setUp()
        self.stand_in("rt", f'[ "$1" = doc ] && exec echo "{self.room}/kit/START-HERE.md"\n'
                            f'echo "rattle-kit-99z logic {LOGIC}"')
        self.top = self.copy()
        (self.top / "crates.txt").write_text("low:\ntk_c staticlib: low\nother staticlib:\n",
                                             encoding="utf-8")
        for name in "low", "tk_c", "other":
            path = self.top / "crates" / name / "src" / "lib.rt"
            path.parent.mkdir(parents=True)
            path.write_text("\n", encoding="utf-8")

    def made(self, backend, broken="none", *more):
        """Makes an archive. Returns the status, the output and the calls of rattle."""
        self.stand_in("rattle", RATTLE % (self.room, broken))
        calls = self.room / "calls"
        calls.write_text("", encoding="utf-8")
        status, said, errors = self.run_tool("tools/c/archive.py", str(self.room / "kept"), backend,
                                             "a-target", str(self.room / f"{backend}.a"), *more,
                                             top=self.top)
        self.assertEqual("", errors)
        return status, said, calls.read_text(encoding="utf-8").splitlines()

    def test_both_backends_share_what_is_proved(self):
        static = "tk_c --crate-type=staticlib over tk_c.kept"
        first = ["build low logic", f"build {static} --backend=llvm --target=a-target logic"]
        self.assertEqual((0, first), self.made("llvm")[::2])
        self.assertEqual((0, [f"build {static} --backend=rattle --target=a-target logic"]),
                         self.made("rattle")[::2])
        for name in "llvm.a", "rattle.a":
            self.assertTrue((self.room / name).is_file())

    def test_another_crate_may_be_named(self):
        static = "other --crate-type=staticlib over other.kept"
        self.assertEqual((0, [f"build {static} --backend=llvm --target=a-target logic"]),
                         self.made("llvm", "none", "other")[::2])

    def test_a_second_run_waits(self):
        kept = self.room / "kept"
        kept.mkdir()
        with (kept / "tk_c.lock").open("w", encoding="utf-8") as lock:
            fcntl.flock(lock, fcntl.LOCK_EX)
            with futures.ThreadPoolExecutor() as pool:
                made = pool.submit(self.made, "llvm")
                while not (kept / "low.rlib").exists() and not made.done():
                    time.sleep(0.01)
                with self.assertRaises(futures.TimeoutError):
                    made.result(0.5)
                fcntl.flock(lock, fcntl.LOCK_UN)
                self.assertEqual(2, len(made.result()[2]))

    def test_no_archive_is_made_of_a_crate_that_is_not_proved(self):
        for broken in "low", "tk_c":
            status, said, _ = self.made("llvm", broken)
            self.assertEqual(1, status)
            self.assertIn(f"fn {broken}::f: not proved\n", said)
            self.assertFalse((self.room / "llvm.a").exists())
