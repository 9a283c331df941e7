"""The verdicts of .ci/run on checks that run, fail, or are left out as a whole or in part."""
import os
import pathlib
import re
import signal
import subprocess
import time

from tools import LOGIC, Case

CHECKS = ["check_docs", "must_fail", "tests/tools", "check_using", "rt ci", "check_c",
          "check_bindings", "check_program", "check_run", "check_kernel", "check_web", "check_linux"]
# (libtkcore.a stands for what check_c keeps)
KEEPS = '[ "$1" = --libraries ] && [ "$3" = --keep ] && mkdir "$4" && touch "$4/libtkcore.a"'
LIST = """# CHECK PACKAGE FOUND BY USED FOR

check_c         part-of-c       c-part                  the headers by c-part
check_kernel    emulator        emulate                 all
check_run       a-language      a-language              a program
"""
# installs all packages but broken ones, as programs in PATH
APT = r"""
echo "$*" >>{room}/apt
[ "$1" = install ] || exit 0
for word; do
    case $word in
    emulator) name=emulate ;;
    part-of-c) name=c-part ;;
    a-language) name=a-language ;;
    *) continue ;;
    esac
    case " {broken} " in *" $word "*) echo "E: no $word" && exit 100 ;; esac
    printf '#!/bin/sh\n' >{room}/first/$name
    chmod +x {room}/first/$name
done
"""


def until(condition, tries=6000):
    """The shell's words that wait until a condition holds, and end with status 7 if it doesn't by
    then. A try takes 0.1 s."""
    return f"n=0; until {condition}; do [ $((n += 1)) -lt {tries} ] || exit 7; sleep 0.1; done"


def uptime():
    """The host's time in s, also in the form that a stub finds."""
    return float(pathlib.Path("/proc/uptime").read_text(encoding="utf-8").split()[0])


class Ci(Case):
    def setUp(self):
        super().setUp()
        self.stand_in("rt", f'echo "rattle-kit-99z logic {LOGIC}"')
        self.top = self.copy("crates.txt", ".ci")
        self.write("tools/packages.txt", LIST)
        self.write("tests/tools/test_none.py", "")
        for name in CHECKS:
            self.stub(name, "echo done")
        self.stub("check_c", f"{KEEPS}\necho done")
        self.stub("check_program", '[ "$1" = --libraries ] && [ "$#" = 2 ]')
        self.apt("")
        self.stand_in("dpkg", "exit 0")

    def write(self, name, text):
        path = self.top / name
        path.parent.mkdir(parents=True, exist_ok=True)
        path.write_text(text, encoding="utf-8")
        return path

    def stub(self, name, script):
        """Replaces the tool of a check by a script. `rt ci` is must_fail with an argument --ci."""
        if name == "tests/tools":
            script = script.replace("echo done", "pass")
            self.write("tests/tools/test_stub.py", f"import unittest\n{script}\n")
            return
        if name in ("must_fail", "rt ci"):
            self.scripts = {**getattr(self, "scripts", {}), name: script}
            name, script = "must_fail", "\n".join(
                f'[ "$1" != {word} ] || {{ {self.scripts.get(check, ":")}\nexit; }}'
                for check, word in [("must_fail", "--apply"), ("rt ci", "--ci")])
        self.write(f"tools/{name}", f"#!/bin/sh\n{script}\n").chmod(0o755)

    def apt(self, broken):
        """Makes an apt-get that can't install these packages."""
        self.stand_in("apt-get", APT.format(room=self.room, broken=broken))

    def run_ci(self, *words, ci=""):
        """Runs CI. Returns its status, the verdicts by name, the closing line and the output."""
        before = os.environ.get("CI")
        os.environ["CI"] = ci
        try:
            status, said, errors = self.run_tool(".ci/run", *words, top=self.top)
        finally:
            os.environ.pop("CI")
            if before is not None:
                os.environ["CI"] = before
        self.assertEqual("", errors)
        *_, last = said.splitlines()
        summary = said.partition("\n.ci/run ")[2].splitlines()
        lines = [it.split(": ", 2)[1:] for it in summary if it.startswith("CI: ")]
        verdicts = {name: word for name, word in lines if name[0] != " "}
        self.assertEqual(CHECKS, list(verdicts))
        return status, verdicts, last, said

    def but(self, **others):
        """Returns the verdicts on checks that ran, but for these."""
        return {**dict.fromkeys(CHECKS, "ran"), **others}

    def parts(self, said):
        """Returns the parts that the last lines name as left out."""
        return [it.removeprefix("CI:     left out: ") for it in said.splitlines()
                if it.startswith("CI:     left out: ")]

    def test_all_that_is_installed_runs_and_is_counted(self):
        for name in "emulate", "c-part", "a-language":
            self.stand_in(name, "exit 0")
        status, verdicts, last, said = self.run_ci()
        self.assertEqual((0, self.but(), "12 passed, 0 failed"), (status, verdicts, last))
        self.assertEqual([], self.parts(said))
        self.assertFalse((self.room / "apt").exists())

    def test_a_check_without_its_packages_is_left_out_and_named(self):
        status, verdicts, last, said = self.run_ci()
        wanted = self.but(check_kernel="left out: emulator")
        self.assertEqual((0, wanted, "11 passed, 0 failed, 1 skipped"), (status, verdicts, last))
        # (parts are named also if their check says nothing of them)
        self.assertEqual(["the headers by c-part: part-of-c", "a program: a-language"],
                         self.parts(said))

    def test_packages_are_installed_first_with_the_option_and_in_ci(self):
        for words, ci in ([["--install"], ""], [[], "true"]):
            with self.subTest(words):
                status, verdicts, last, said = self.run_ci(*words, ci=ci)
                self.assertEqual((0, self.but(), "12 passed, 0 failed"), (status, verdicts, last))
                self.assertIn("installing part-of-c emulator a-language\n", said)
                for name in "emulate", "c-part", "a-language":
                    (self.first / name).unlink()

    def test_packages_are_installed_while_rt_ci_runs(self):
        begun = self.room / "begun"
        wait = until(f"[ -e {begun} ]") + "\n"
        self.write("tools/packages.txt", f"{LIST}tests/tools part-of-c c-part a test\n")
        self.stand_in("apt-get", wait + APT.format(room=self.room, broken=""))
        self.stub("rt ci", f"touch {begun}")
        status, verdicts, last, said = self.run_ci(ci="true")
        self.assertEqual((0, self.but(), "12 passed, 0 failed"), (status, verdicts, last))
        self.assertLess(said.index("CI: must_fail ended"), said.index("installing part-of-c"))

    def test_packages_that_cannot_be_installed_leave_their_checks_out(self):
        self.apt("emulator")
        status, verdicts, last, said = self.run_ci(ci="true")
        wanted = self.but(check_kernel="left out: emulator")
        self.assertEqual((0, wanted, "11 passed, 0 failed, 1 skipped"), (status, verdicts, last))
        self.assertIn("tools/packages: emulator can't be installed:\nE: no emulator\n", said)
        self.assertIn("CI: not all packages could be installed:", said)
        # (apt-get installs none of several if one can't be, so the others were installed alone)
        self.assertTrue((self.first / "c-part").exists())
        self.assertTrue((self.first / "a-language").exists())

    def test_an_installed_package_that_is_not_found_fails_its_check(self):
        self.stand_in("apt-get", "exit 0")
        self.stand_in("dpkg-query", "echo 'installed emulator'")
        wanted = self.but(check_kernel="left out: emulator")
        self.assertEqual((0, wanted), self.run_ci()[:2])
        wanted = self.but(check_kernel="failed: emulator")
        self.assertEqual((1, wanted), self.run_ci(ci="true")[:2])

    def test_what_is_installed_is_looked_up_again_after_the_installation(self):
        # (dpkg is asked before it too, for the package of check_docs)
        self.write("tools/packages.txt", f"{LIST}check_docs a-name - a part\n")
        done = self.room / "installed"
        self.stand_in("apt-get", f"touch {done}")
        self.stand_in("dpkg-query", f"[ ! -e {done} ] || echo 'installed emulator'")
        wanted = self.but(check_kernel="failed: emulator")
        self.assertEqual((1, wanted), self.run_ci(ci="true")[:2])

    def test_a_run_goes_on_without_apt_get(self):
        self.stand_in("apt-get", "echo 'E: Permission denied'\nexit 100")
        status, verdicts, last, said = self.run_ci(ci="true")
        wanted = self.but(check_kernel="left out: emulator")
        self.assertEqual((0, wanted, "11 passed, 0 failed, 1 skipped"), (status, verdicts, last))
        self.assertIn("tools/packages: apt-get update failed:\nE: Permission denied\n", said)

    def test_a_part_left_out_with_its_packages_installed_fails_where_they_are_to_be(self):
        self.stand_in("emulate", "exit 0")
        self.stub("check_run", "echo 'check_run: left out test_go: a-language isn'\"'t installed\"")
        part = "test_go: a-language isn't installed"
        status, verdicts, last, said = self.run_ci()
        self.assertEqual((0, self.but(), "12 passed, 0 failed"), (status, verdicts, last))
        self.assertIn(part, self.parts(said))
        status, verdicts, last, said = self.run_ci(ci="true")
        why = "failed: left out with its packages installed: test_go"
        self.assertEqual((1, self.but(check_run=why), "11 passed, 1 failed"),
                         (status, verdicts, last))
        self.apt("a-language")
        (self.first / "a-language").unlink()
        status, verdicts, last, said = self.run_ci(ci="true")
        self.assertEqual((0, self.but(), "12 passed, 0 failed"), (status, verdicts, last))
        self.assertIn(part, self.parts(said))

    def test_a_part_left_out_for_another_reason_is_named_and_passes(self):
        why = "no TSC, and part-of-c has none"
        self.stub("check_c", f"{KEEPS}\necho 'check_c: left out: reads of the TSC: {why}'")
        status, verdicts, last, said = self.run_ci(ci="true")
        self.assertEqual((0, self.but(), "12 passed, 0 failed"), (status, verdicts, last))
        self.assertEqual([f"reads of the TSC: {why}"], self.parts(said))

    def test_a_check_that_fails_is_named_and_counted(self):
        self.stand_in("emulate", "exit 0")
        self.stub("check_run", "echo 'a test failed'\nexit 3")
        status, verdicts, last, said = self.run_ci()
        self.assertEqual((1, self.but(check_run="failed: status 3"), "11 passed, 1 failed"),
                         (status, verdicts, last))
        self.assertIn("a test failed\n", said)

    def test_nothing_long_runs_after_a_quick_check_that_fails(self):
        self.stub("must_fail", "exit 1")
        status, verdicts, last, _ = self.run_ci()
        rest = dict.fromkeys(CHECKS[2:], "not run: after a failure of must_fail")
        self.assertEqual((1, self.but(must_fail="failed: status 1", **rest),
                          "1 passed, 1 failed, 10 skipped"), (status, verdicts, last))

    def test_the_library_for_c_is_checked_while_rt_ci_proves_the_crates_above(self):
        begun = self.room / "begun"
        self.stub("check_c", f"touch {begun}\n{KEEPS}\necho done")
        self.stub("rt ci", f"""[ "$3" = --libraries ] && mkdir "$4" || exit 4
            for name in counter clock lanes line ntp keeper steered script report; do
                mkdir "$4/tk_$name.rlib"
            done
            sleep 1
            [ ! -e {begun} ] && mkdir "$4/tk_session.rlib" || exit 5
            {until(f"[ -e {begun} ]")}""")
        status, verdicts, _, said = self.run_ci()
        self.assertEqual((0, "ran", "ran"), (status, verdicts["rt ci"], verdicts["check_c"]), said)

    def test_kernels_are_built_beside_rt_ci_and_guests_run_beside_check_run(self):
        built, began = self.room / "built", self.room / "began"
        idle = min(19, os.nice(0) + 19)  # (whoever runs the tests may itself be nice)
        self.stub("check_linux", f"""[ "$(nice)" = {idle} ] || exit 3
            [ "$1" != --build ] || {{ echo built >>{built}; exit 1; }}
            [ $# = 0 ] && touch {began}
            {until(f"[ -e {self.room}/ran ]")}""")
        self.stub("rt ci", until(f"[ -e {built} ]"))
        self.stub("check_run", f"""{until(f"[ -e {began} ]")}
            touch {self.room}/ran""")
        status, verdicts, _, said = self.run_ci()
        # (what makes the kernels may fail: check_linux itself makes those that are missing)
        self.assertEqual((0, "ran"), (status, verdicts["check_linux"]), said)
        self.assertEqual("built\n", built.read_text(encoding="utf-8"))

    def test_no_kernel_is_built_without_its_packages(self):
        began = self.room / "began"
        self.write("tools/packages.txt", f"{LIST}check_linux a-kernel a-kernel all\n")
        self.stub("check_linux", f"touch {began}")
        _, verdicts, _, _ = self.run_ci()
        self.assertEqual("left out: a-kernel", verdicts["check_linux"])
        self.assertFalse(began.exists())

    def test_the_packages_are_checked_after_rt_ci_failed_and_the_program_is_not(self):
        self.stub("rt ci", "echo '40 passed, 2 failed'\nexit 1")
        status, verdicts, last, said = self.run_ci()
        rest = dict.fromkeys(CHECKS[7:], "not run: after a failure of rt ci")
        self.assertEqual((1, self.but(**{"rt ci": "failed: status 1"}, **rest),
                          "6 passed, 1 failed, 5 skipped"), (status, verdicts, last))
        self.assertIn("\n40 passed, 2 failed\n", said)

    def test_the_library_that_is_not_built_is_not_tried(self):
        self.stub("check_c", "exit 1")
        _, verdicts, last, _ = self.run_ci()
        self.assertEqual("not run: after a failure of check_c", verdicts["check_bindings"])
        self.assertEqual("6 passed, 1 failed, 5 skipped", last)

    def test_the_times_of_the_checks_are_printed_as_the_page_has_them(self):
        _, _, _, said = self.run_ci()
        times = said.partition("docs/times.txt:\n")[2].partition("CI: ")[0].splitlines()
        for line in times:
            self.assertRegex(line, r"^[\w./ ]{15} +\d+ s +\d+ s$")
        names = [it[:16].strip() for it in times]
        self.assertEqual([*(it for it in CHECKS if it != "check_kernel"), ".ci/run"], names)

    def test_the_time_of_a_check_beside_others_ends_with_it(self):
        # rt ci notes when the other one's number was free, and ends 4 s later
        using, gone = self.room / "using", self.room / "gone"
        self.stub("check_using", f"echo $$ >{using}")
        self.stub("rt ci", f"""{until(f"[ -s {using} ]")}
            {until(f"[ ! -e /proc/$(cat {using}) ]", 600)}
            cut -d' ' -f1 /proc/uptime >{gone}
            sleep 4""")
        began = uptime()
        _, verdicts, _, said = self.run_ci()
        self.assertEqual("ran", verdicts["rt ci"])
        times = dict(re.findall(r"^(check_using|rt ci) +(\d+) s", said, re.M))
        most = float(gone.read_text(encoding="utf-8")) - began
        self.assertLessEqual(int(times["check_using"]), most + 1)  # (it is rounded)
        self.assertGreater(int(times["rt ci"]), 3)

    def check_ended(self, file):
        """The process whose number is in a file has ended, or does so within a minute."""
        process = pathlib.Path("/proc", file.read_text(encoding="utf-8").strip(), "exe")
        for _ in range(600):
            if not process.exists():
                return
            time.sleep(0.1)
        self.fail(f"{process} is there")

    def test_an_end_from_outside_ends_all_that_was_started(self):
        started = self.room / "started"
        self.stub("check_using", f"sleep 3600 & echo $! >{started}.using\nwait")
        self.stub("rt ci", f"sleep 3600 & echo $! >{started}.rt\nwait")
        self.stub("check_linux", f"sleep 3600 & echo $! >{started}.linux\nwait")
        path = f"{self.first}:{os.environ['PATH']}"
        with subprocess.Popen([str(self.top / ".ci/run")], stdout=subprocess.DEVNULL,
                              env={**os.environ, "PATH": path, "TMPDIR": str(self.room)}) as ran:
            files = [pathlib.Path(f"{started}.{it}") for it in ("using", "rt", "linux")]
            for _ in range(600):
                if all(it.exists() and it.read_text() for it in files):
                    break
                time.sleep(0.1)
            ran.send_signal(signal.SIGTERM)
            self.assertEqual(130, ran.wait(60))
        for file in files:
            self.check_ended(file)
        self.assertEqual([], list(self.room.glob("ci-*")))

    def test_what_a_check_leaves_behind_is_ended(self):
        left = self.room / "left"
        self.stub("check_run", f"sleep 3600 & echo $! >{left}")
        self.assertEqual(0, self.run_ci()[0])
        self.check_ended(left)

    def test_a_check_that_does_not_end_is_ended_and_named(self):
        left = self.room / "left"
        self.stub("check_run", f"sleep 3600 & echo $! >{left}\nwait")
        self.addCleanup(os.environ.pop, "CI_LIMIT")
        os.environ["CI_LIMIT"] = "20"
        status, verdicts, _, _ = self.run_ci()
        self.assertEqual((1, "failed: it hadn't ended after 20 s"), (status, verdicts["check_run"]))
        self.check_ended(left)

    def test_other_arguments_are_refused(self):
        status, said, errors = self.run_tool(".ci/run", "--instal1", top=self.top)
        self.assertEqual((2, ""), (status, said))
        self.assertIn("unrecognized arguments", errors)
