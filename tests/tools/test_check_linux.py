"""tools/check_linux, with stand-ins for the build of the kernels, their guests and the comparison."""
import contextlib
import os
import pathlib
import signal
import subprocess
import time

from tools import Case

# notes that it was called, and with which arguments
NOTES = 'echo "$(basename "$0") $*" >>{room}/calls'


class CheckLinux(Case):
    def setUp(self):
        super().setUp()
        self.top = self.copy("ports/linux")
        source = self.room / "source.tar.xz"
        source.write_bytes(b"a kernel")
        tool = self.top / "tools/check_linux"
        text = tool.read_text(encoding="utf-8")
        named = "source=/usr/src/linux-source-6.1.tar.xz"
        self.assertIn(named, text)
        tool.write_text(text.replace(named, f"source={source}"), encoding="utf-8")
        self.stand_in("qemu-system-x86_64", "echo 'QEMU 7.2'")
        self.stub("tools/packages", "exit 0")
        self.stub("tools/assemble", 'mkdir -p "$2/lib" && echo x >"$2/lib/libtkcore_kernel_sse.a"')
        for name in "tests/late.py", "tests/process.py", "build", "selftests", "compare":
            self.stub(f"ports/linux/{name}", NOTES.format(room=self.room))
        self.kept = self.room / "kept/linux"

    def stub(self, name, script):
        (self.top / name).write_text(f"#!/bin/sh\n{script}\n", encoding="utf-8")

    def check(self, *words):
        """Runs the check. Returns its status, and the programs that it called since the last one."""
        calls = self.room / "calls"
        calls.unlink(missing_ok=True)
        status, _, errors = self.run_tool("tools/check_linux", "--keep", str(self.kept), *words,
                                          top=self.top)
        self.assertEqual("", errors)
        lines = calls.read_text(encoding="utf-8").splitlines() if calls.exists() else []
        return status, [line.split()[0] for line in lines]

    def test_a_run_finds_the_kernels_that_another_one_built(self):
        self.assertEqual((0, ["build"]), self.check("--build"))
        self.assertEqual((0, []), self.check("--build"))
        in_process = ["late.py", "process.py"]
        self.assertEqual((0, [*in_process, "selftests", "compare"]), self.check())
        self.assertEqual((0, [*in_process, "compare"]), self.check())
        self.assertEqual((0, in_process), self.check("--process"))

    def test_a_build_that_failed_is_made_again(self):
        mended = self.room / "mended"
        self.stub("ports/linux/build", f"{NOTES.format(room=self.room)}; [ -e {mended} ] || exit 3")
        self.assertEqual((3, ["build"]), self.check("--build"))
        mended.touch()
        wanted = ["late.py", "process.py", "build", "selftests", "compare"]
        self.assertEqual((0, wanted), self.check())

    def test_a_long_run_builds_the_other_kernels_when_only_their_sources_change(self):
        self.assertEqual((0, ["build", "build"]), self.check("--long", "--build"))
        self.assertEqual((0, []), self.check("--long", "--build"))
        with open(self.top / "ports/linux/config.more", "a", encoding="utf-8") as config:
            config.write("CONFIG_DEBUG_FS=y\n")
        self.assertEqual((0, ["build"]), self.check("--long", "--build"))
        self.assertEqual((0, []), self.check("--build"))

    def until(self, is_so):
        for _ in range(600):
            if is_so():
                return
            time.sleep(0.1)
        self.fail("it didn't become so within a minute")

    def test_a_run_waits_for_the_one_that_builds(self):
        asked, began, go = (self.room / name for name in ("asked", "began", "go"))
        self.stand_in("flock", f"""if /usr/bin/flock -n "$@"; then echo free >>{asked}; exit; fi
            echo held >>{asked}
            exec /usr/bin/flock "$@\"""")
        self.stub("ports/linux/build", f"""{NOTES.format(room=self.room)}
            touch {began}
            n=0; until [ -e {go} ] || [ $((n += 1)) = 600 ]; do sleep 0.1; done""")
        found = {**os.environ, "PATH": f"{self.first}:{os.environ['PATH']}"}
        words = [str(self.top / "tools/check_linux"), "--keep", str(self.kept)]
        with subprocess.Popen([*words, "--build"], env=found, stdout=subprocess.DEVNULL) as first:
            self.until(began.exists)
            with subprocess.Popen(words, env=found, stdout=subprocess.DEVNULL) as second:
                self.until(lambda: len(asked.read_text(encoding="utf-8").split()) == 2)
                go.touch()
                self.assertEqual((0, 0), (first.wait(60), second.wait(60)))
        self.assertEqual("free\nheld\n", asked.read_text(encoding="utf-8"))
        calls = (self.room / "calls").read_text(encoding="utf-8").splitlines()
        wanted = ["build", "late.py", "process.py", "selftests", "compare"]
        self.assertEqual(wanted, [it.split()[0] for it in calls])

    def test_a_guest_that_outlives_its_run_keeps_no_other_one_waiting(self):
        left = self.room / "left"
        self.stub("ports/linux/selftests", f"""{NOTES.format(room=self.room)}
            setsid sleep 60 >/dev/null 2>&1 & echo $! >{left}""")
        self.assertEqual(0, self.check()[0])
        number = int(left.read_text(encoding="utf-8"))
        try:
            self.assertEqual((0, ["late.py", "process.py", "compare"]), self.check())
            self.assertTrue(pathlib.Path("/proc", str(number), "exe").exists())
        finally:
            with contextlib.suppress(ProcessLookupError):
                os.kill(number, signal.SIGKILL)
