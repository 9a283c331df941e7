"""--seed: random bytes, the numbers of processes and their addresses are the same in each run."""
import os
import random
import signal
import subprocess
import time
import unittest

from runs import (CAN_FILTER, CAN_MOUNT, IS_ROOT, OTHER, STILL, TKRUN, RunTest, call, needs, program,
                  wait_until)

BYTES = program("random_bytes")
SAME = [*STILL, "--start", 5]


def values(text):
    """The values of each name."""
    found = {}
    for line in text.splitlines():
        name, _, rest = line.partition(" ")
        found.setdefault(name, []).append(rest)
    return found


@unittest.skipUnless(CAN_FILTER, "the kernel lets no filter ask tkrun")
class Bytes(RunTest):
    def shown(self, seed, *before):
        text = self.run_on(*SAME, "--seed", seed, "--", *before, BYTES)
        self.assertNotIn("line", text)
        return text

    def test_the_same_seed_gives_the_same_bytes(self):
        first = self.shown(1)
        for _ in range(5):
            if CAN_MOUNT:  # otherwise the numbers of processes differ
                self.assertEqual(self.shown(1), first)
        other = values(self.shown(2))
        for name, found in values(first).items():
            if name not in ("places", "numbers"):
                for one, two in zip(found, other[name]):
                    self.assertNotEqual(one, two, name)

    def test_no_bytes_come_twice(self):
        found = values(self.shown(1))
        texts = [text[:12] for name, all in found.items() for text in all
                 if name not in ("places", "numbers") and len(text) >= 12]
        self.assertEqual(len(texts), 15)
        self.assertEqual(len(set(texts)), len(texts))
        self.assertFalse([text for text in texts if "000000" in text])

    def test_without_a_seed_the_bytes_are_the_hosts(self):
        found = [values(self.run_on(*SAME, "--", BYTES)) for _ in range(2)]
        for name in ("getrandom", "start", "read", "child"):
            self.assertNotEqual(found[0][name], found[1][name])

    def test_each_process_and_each_node_has_its_bytes(self):
        text = (f"for node in a b; do {TKRUN} node $node -- {BYTES}; {TKRUN} node $node -- {BYTES}; "
                f"done; {BYTES}")
        runs = [self.run_on(*SAME, "--seed", 3, "--node", "a", "--node", "b", "--", "sh", "-c", text)
                for _ in range(2)]
        if CAN_MOUNT:
            self.assertEqual(*runs)
        for name in ("getrandom", "start", "child", "syscall"):
            self.assertEqual(len(set(values(runs[0])[name])), 5, name)

    @unittest.skipUnless(CAN_MOUNT, "there is no PID namespace")
    def test_two_processes_that_start_at_once(self):
        text = f"{BYTES} >{self.folder}/a & {BYTES} >{self.folder}/b & wait"
        found = set()
        for _ in range(6):
            self.run_on(*SAME, "--seed", 4, "--", "sh", "-c", text)
            found.add((self.folder / "a").read_text() + (self.folder / "b").read_text())
        self.assertEqual(len(found), 1)

    def test_the_environment_is_the_same(self):
        seed = random.randrange(1 << 64)  # no other run has it now
        shown = [self.run_on(*SAME, "--seed", seed, "--", "env") for _ in range(4)]
        self.assertEqual(len(set(shown)), 1)
        self.assertNotIn(self.run_on(*SAME, "--seed", seed ^ 1, "--", "env"), shown)
        # two runs at once have a folder each
        held = self.begin(TKRUN, "--quiet", *SAME, "--seed", seed, "--", "sh", "-c",
                          "echo $TKRUN; read it", stdin=subprocess.PIPE)
        first = held.stdout.readline().strip()
        second = self.run_on(*SAME, "--seed", seed, "--", "sh", "-c", "echo $TKRUN").strip()
        held.communicate("\n")
        self.assertIn(f"\nTKRUN={first}\n", "\n" + shown[0])
        self.assertEqual((first == second, len(first)), (False, len(second)))

    @needs("python3")
    def test_the_hashes_of_python(self):
        code = "import random; print(hash('x'), random.random(), sorted({'a', 'b', 'c'}, key=hash))"
        runs = {self.run_on(*SAME, "--seed", seed, "--", "python3", "-c", code)
                for seed in [1, 1, 1, 2]}
        self.assertEqual(len(runs), 2 if CAN_MOUNT else len(runs))

    def test_a_static_program(self):
        source = self.file("s.c", "#include <stdio.h>\n#include <sys/random.h>\n"
                           "int main(void) { unsigned long x; getrandom(&x, 8, 0); "
                           "printf(\"%lx\\n\", x); return 0; }\n")
        made = self.folder / "static"
        subprocess.run(["gcc", "-static", "-o", made, source], check=True)
        runs = [self.run_on(*SAME, "--seed", seed, "--", made) for seed in [1, 1, 2]]
        self.assertNotEqual(runs[0], runs[2])
        if CAN_MOUNT:
            self.assertEqual(runs[0], runs[1])


@unittest.skipUnless(CAN_MOUNT, "there is no PID namespace")
class Numbers(RunTest):
    def test_processes_have_the_same_numbers(self):
        text = "echo $$; sh -c 'echo $$ $PPID'; sleep 1 & echo $!; wait; ls -d /proc/[0-9]*"
        runs = {self.run_on(*SAME, "--seed", seed, "--node", "a", "--", "sh", "-c", text)
                for seed in [1, 1, 1, 2, 3]}
        self.assertEqual(len(runs), 1)
        self.assertEqual(runs.pop().splitlines()[0], "2")

    def test_a_record_with_readers_is_the_same(self):
        text = f"{TKRUN} node a -- date; (date; sleep 1; date) & date; wait"
        found = set()
        for i in range(4):
            record = self.folder / f"r{i}"
            self.run_on(*SAME, "--seed", 1, "--node", "a", "--record", record, "--readers", "--check",
                        "--log", self.folder / "l", "--", "sh", "-c", text)
            found.add(tuple((path.name[2:], path.read_text())
                            for path in sorted(self.folder.glob(f"r{i}*"))))
        self.assertEqual(len(found), 1)
        self.assertEqual(len(found.pop()), 5)

    def test_the_status_of_the_program(self):
        for code, status in [("exit 7", 7), ("kill -9 $$", 137), ("kill $$", 143)]:
            self.run_on(*SAME, "--seed", 1, "--", "sh", "-c", code, status=status)
        self.assertEqual(self.start(*SAME, "--seed", 1, "--", "/nowhere").returncode, 127)
        self.assertEqual(self.start(*SAME, "--seed", 1, "--", "/").returncode, 126)

    def begin_sleep(self, *before):
        # (whoever runs the tests may ignore signals)
        run = self.begin("env", "--default-signal", *before, TKRUN, "--quiet", "--counter", "sleeps",
                         "--seed", "1", "--node", "a", "--", "sh", "-c", "trap 'echo ended' TERM HUP "
                         "INT; (echo $TKRUN; exec cat); echo over", stdin=subprocess.PIPE)
        return run, run.stdout.readline().strip()

    def test_signals_reach_the_program(self):
        for number, text in [(signal.SIGTERM, "ended"), (signal.SIGINT, "ended"),
                             (signal.SIGHUP, "ended")]:
            run, folder = self.begin_sleep()
            self.assertTrue(os.path.isdir(folder))
            run.send_signal(number)
            if number == signal.SIGHUP:  # it goes to the program, which waits for cat
                run.stdin.close()
            self.assertIn(text, run.stdout.read())
            run.wait()
            wait_until(lambda: not os.path.exists(folder))

    def test_a_second_signal_kills(self):
        run, folder = self.begin_sleep()
        start = time.monotonic()
        run.send_signal(signal.SIGTERM)
        time.sleep(0.2)
        run.send_signal(signal.SIGTERM)
        run.wait()
        self.assertLess(time.monotonic() - start, 60)
        wait_until(lambda: not os.path.exists(folder))

    def test_nothing_is_left_if_tkrun_is_killed(self):
        run, folder = self.begin_sleep()
        run.kill()
        run.wait()
        wait_until(lambda: not os.path.exists(folder))

    def test_ctl_from_outside(self):
        run, folder = self.begin_sleep()
        told = call([TKRUN, "ctl", "a", "step", "5"], env={**os.environ, "TKRUN": folder})
        self.assertEqual((told.returncode, told.stdout, told.stderr), (0, "", ""))
        run.stdin.close()
        self.assertIn("over", run.stdout.read())

    def test_mounts_of_the_program_are_its_own(self):
        place = self.folder / "place"
        place.mkdir()
        self.run_on(*SAME, "--seed", 1, "--", "mount", "-t", "tmpfs", "tmpfs", place)
        self.assertFalse(os.path.ismount(place))

    def test_addresses_are_the_same_for_each_seed(self):
        places = {values(self.run_on(*SAME, "--seed", seed, "--", BYTES))["places"][0]
                  for seed in [1, 1, 2, 3]}
        self.assertEqual(len(places), 1)


class Refused(RunTest):
    def check(self, *before):
        self.share()
        run = call([*before, self.folder / "dist/bin/tkrun", "--quiet", *map(str, SAME), "--seed",
                    "1", "--", "sh", "-c", "echo ran"])
        self.assertEqual((run.returncode, run.stdout), (0, "ran\n"))
        return run.stderr

    @unittest.skipUnless(IS_ROOT, "only root becomes another user")
    def test_a_user_has_the_hosts_numbers(self):
        self.assertRegex(self.check(*OTHER), "^tkrun: --seed: the numbers of processes are the "
                         "host's: Operation not permitted\n$")

    @unittest.skipUnless(CAN_MOUNT, "only root mounts")
    def test_no_proc_can_be_mounted(self):
        # a folder that is no mount point can't get the mounts of the host
        root = self.make_root("sh", "setpriv")
        (root / "proc").mkdir()
        for name in ("dist", "shm"):
            (root / name).mkdir()
        shared = self.share()
        command = ("mount --rbind /proc $1/root/proc; mkdir -p $1/root/dev/shm; "
                   "mount -t tmpfs tmpfs $1/root/dev/shm; cp -r $1/dist $1/root; "
                   "exec chroot $1/root /dist/bin/tkrun --quiet --counter sleeps --lax --seed 1 -- "
                   f"{subprocess.check_output(['which', 'sh'], text=True).strip()} -c 'echo ran'")
        run = call(["unshare", "-m", "sh", "-c", command, "sh", shared.parent])
        self.assertEqual(run.stdout, "ran\n", run.stderr)
        self.assertRegex(run.stderr, "^tkrun: --seed: the numbers of processes are the host's: .+\n$")
