"""Daemons that drop root, and programs whose own libraries want to be the first."""
import pathlib
import re
import shutil
import subprocess
import unittest

from runs import STILL, TKRUN, RunTest, needs, needs_root, program, wait_until

CHRONYD = shutil.which("chronyd", path="/usr/sbin:/sbin:/usr/bin:/bin")
# it conflicts with chrony, so it may be unpacked only
TIMESYNCD = (shutil.which("/lib/systemd/systemd-timesyncd") or
             shutil.which("/usr/src/deb-systemd-timesyncd/lib/systemd/systemd-timesyncd"))
CONFIGURATION = """server 127.0.0.1 port 9
port 0
cmdport 0
bindcmdaddress /
pidfile {folder}/pid
"""
# the numbers of poll, select, pselect, ppoll, epoll_wait and epoll_pwait
WAITS = {"7", "23", "270", "271", "232", "281"}
# reads past the end of an array if it gets an argument
CHECKED = """#include <stdio.h>
#include <stdlib.h>
#include <time.h>
#include <unistd.h>
int main(int count, char **words)
{
    struct timespec *now = malloc(count > 1 ? 8 : sizeof(*now));
    sleep(2);
    clock_gettime(CLOCK_REALTIME, now);
    printf("%lld\\n", (long long)now->tv_sec);
    if (count > 1)
        printf("%ld\\n", now->tv_nsec);
    free(now);
    return 0;
}
"""


def text_of(process, name):
    return pathlib.Path(f"/proc/{process}/{name}").read_text()


class Rights(RunTest):
    @needs_root("drops root")
    def test_a_program_keeps_the_right_to_set_the_clock(self):
        for options in [[], ["--record", self.folder / "r"]]:
            self.assertEqual(self.run_on(*STILL, *options, "--", program("rights")), "")

    @needs_root("drops root")
    def test_the_right_ends_with_deny_set(self):
        self.assertRegex(self.run_on(*STILL, "--deny-set", "--", program("rights"), status=1),
                         r"^\S*rights.c:\d+: !clock_settime")

    def waits_without_root(self, process):
        """Whether a process or one that it has started waits for files, and isn't root's."""
        try:
            user = re.search(r"^Uid:\s(\d+)", text_of(process, "status"), re.M)[1]
            call = text_of(process, "syscall").split()[0]
            children = text_of(process, f"task/{process}/children").split()
        except OSError:  # it has ended
            return False
        return (user != "0" and call in WAITS) or any(map(self.waits_without_root, children))

    def starts(self, *command):
        """A daemon goes on until it is ended."""
        run = self.begin(TKRUN, "--quiet", "--start", "2030-01-01T00:00:00Z", "--", *command,
                         stderr=subprocess.STDOUT)
        wait_until(lambda: run.poll() is not None or self.waits_without_root(run.pid))
        is_running = run.poll() is None
        run.terminate()
        output = run.communicate(timeout=100)[0]
        self.assertTrue(is_running, output)
        self.assertNotIn("apabilit", output)
        self.assertNotIn("rivilege", output)

    @needs_root("drops root")
    @unittest.skipUnless(CHRONYD, "chronyd isn't installed")
    def test_chronyd(self):
        file = self.file("conf", CONFIGURATION.format(folder=self.folder))
        self.folder.chmod(0o777)
        self.starts(CHRONYD, "-d", "-u", "nobody", "-F", "0", "-f", file)

    @needs_root("drops root")
    @unittest.skipUnless(TIMESYNCD, "systemd-timesyncd isn't installed")
    def test_systemd_timesyncd(self):
        self.starts(TIMESYNCD)


@needs("gcc")
class Sanitizers(RunTest):
    def build(self, *options):
        built = self.folder / "program"
        made = subprocess.run(["gcc", "-g", *options, "-o", built, self.file("main.c", CHECKED)],
                              check=False, capture_output=True)
        if made.returncode:
            self.skipTest(f"gcc has no {options[0]}")
        return built

    def test_each_one(self):
        for option in ["-fsanitize=address", "-fsanitize=undefined", "-fsanitize=thread",
                       "-fsanitize=leak"]:
            with self.subTest(option):
                self.assertEqual(self.run_on(*STILL, "--start", 1000000000, "--",
                                             self.build(option)), "1000000002\n")

    def test_a_fault_is_found(self):
        run = self.start("--quiet", *STILL, "--", self.build("-fsanitize=address"), "fault")
        self.assertEqual(run.returncode, 1)
        self.assertIn("heap-buffer-overflow", run.stderr)
