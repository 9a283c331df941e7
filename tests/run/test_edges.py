"""Calls with arguments at the edges of what they allow (tests/run/edges.c), what --log says of
calls, and how many the summary counts. The expected values are sums, or those of the host."""
import re
import shutil
import unittest

from runs import (CAN_FILTER, LINUX, OTHER, STILL, TKRUN, RunTest, call, needs, needs_mounts,
                  needs_root, program)

# what a call returned, its errno, and by how many ns MONOTONIC has moved on: a wait adds a cycle
EDGES = """\
sleep 7 - 2200000001
sleep 7 - 2700000001
alarm 100 - 0
alarm 101 - 0
alarm 2 - 0
alarm 1 - 0
alarm 1 - 0
ualarm 3250000 - 0
alarm 0 - 0
alarm 100 - 0
timer_getoverrun 3 - 1100000001
timerfd_settime 0 - 0
read 8 - 2000000001
semtimedop -1 EAGAIN 0
select 0 - 3500000001
rest 0 - 3500000001
ppoll -1 EINTR 1000000001
rest 7 - 1000000001
pselect6 -1 EINTR 1000000001
epoll_pwait -1 EINTR 1000000001
epoll_pwait2 -1 EINTR 1000000001
ppoll -1 EINVAL 0
pselect6 -1 EINVAL 0
epoll_pwait -1 EINVAL 0
epoll_pwait2 -1 EINVAL 0
epoll_pwait 0 - 0
rt_sigtimedwait -1 EINVAL 0
"""

NOTED = "tkrun: semtimedop with IPC_NOWAIT waited by the host's time\n"

# each line of calls.c, and what the log says of it, or nothing
ASKED = "offset={} freq={} maxerror={} esterror={} tick={} status={} constant={} time={}.{} = {}"
LOGGED = [
    ("settime 0 1500000000 7", "clock_settime 1500000000.000000007 = 0"),
    ("settime 0 -3 4", "clock_settime -3.000000004 = EINVAL"),
    ("settime 7 5 5", "clock_settime clock 7 = EINVAL"),
    ("sys_settimeofday 1600000000 8", "settimeofday 1600000000.000008 = 0"),
    ("sys_adjtimex modes=0", None), ("sys_adjtimex modes=0xa001 offset=18", None),
    ("sys_adjtimex modes=0xe maxerror=12 esterror=13 freq=11",
     "adjtimex modes=0xe " + ASKED.format(0, 11, 12, 13, 0, 0, 0, 0, 0, 5)),
    ("sys_adjtimex modes=0x4030 status=0x2041 constant=1 tick=10005",
     "adjtimex modes=0x4030 " + ASKED.format(0, 0, 0, 0, 10005, "0x2041", 1, 0, 0, 5)),
    ("clock_adjtime 0 modes=0x2101 offset=14 sec=15 sub=16",
     "clock_adjtime modes=0x2101 " + ASKED.format(14, 0, 0, 0, 0, 0, 0, 15, 16, 5)),
    ("sys_adjtimex modes=0x4000 tick=8999",
     "adjtimex modes=0x4000 " + ASKED.format(0, 0, 0, 0, 8999, 0, 0, 0, 0, "EINVAL")),
]
NAMED = [
    ("settimeofday 1600000001 9", "settimeofday 1600000001.000009 = 0"),
    ("stime 1700000000", "stime 1700000000.000000000 = 0"),
    ("adjtimex modes=0x8 esterror=19",
     "adjtimex modes=0x8 " + ASKED.format(0, 0, 0, 19, 0, 0, 0, 0, 0, 5)),
    ("ntp_adjtime modes=0x80 constant=37",
     "ntp_adjtime modes=0x80 " + ASKED.format(0, 0, 0, 0, 0, 0, 37, 0, 0, 5)),
    ("adjtime 3 250000",
     "adjtime modes=0x8001 " + ASKED.format(3250000, 0, 0, 0, 0, 0, 0, 0, 0, 5)),
]

# what a process of another user may not do
FORBIDDEN = ["settime 0 1500000000 7", "sys_settimeofday 1600000000 8",
             "adjtimex modes=0x2 freq=11", "clock_adjtime 0 modes=0x2 freq=11", "adjtimex modes=0"]

# asks tkrun for each file of the clocks, by CALL_FILE of run/clocks/host.h
ASKS = """import ctypes, errno
library = ctypes.CDLL(None, use_errno=True)
def ask(which):
    ctypes.set_errno(0)
    return library.syscall(0x746b72, which) < 0 and errno.errorcode[ctypes.get_errno()] or "0"
print(*map(ask, range(6)))
"""


class Edges(RunTest):
    def test_what_calls_return(self):
        run = self.start("--quiet", *STILL, "--", program("edges"))
        self.assertEqual((run.returncode, run.stderr), (0, NOTED))
        self.assertEqual(run.stdout[:len(EDGES)], EDGES)
        # what the host's calls return, without the time that they take
        host = call([program("edges")]).stdout.splitlines()
        self.assertEqual([line.split()[:3] for line in run.stdout.splitlines()[EDGES.count("\n"):]],
                         [line.split()[:3] for line in host[EDGES.count("\n"):]])

    @needs_root("makes a namespace of processes")
    @needs_mounts("makes one of processes")
    def test_a_wait_in_parts_keeps_its_files(self):
        # no signal of tkrun ends a wait there
        self.assertEqual(self.run_on("--", "unshare", "--pid", "--fork", program("edges"),
                                     "slices"), "select 1 1\n")

    def calls(self, name, lines, *options, user=()):
        text = "".join(f"{line}\n" for line in lines)
        return call([*map(str, [TKRUN, *STILL, "--start", 1000000000, *options, "--", *user,
                                program(name)])], input=text)

    def logged(self, name, table):
        """The log of the calls of a table, without the number of the process."""
        log = self.folder / "log"
        run = self.calls(name, [line for line, _ in table], "--quiet", "--log", log)
        self.assertEqual((run.returncode, run.stderr), (0, ""))
        return [line.split(" ", 1)[1] for line in log.read_text().splitlines()]

    def test_the_log(self):
        for name, table in [("calls", LOGGED + NAMED), ("static_calls", LOGGED)]:
            with self.subTest(name):
                self.assertEqual(self.logged(name, table), [line for _, line in table if line])

    def test_the_log_names_the_process_of_a_thread(self):
        for name, words in [("masks", []), ("static_masks", ["static"])]:
            with self.subTest(name):
                log = self.folder / name
                self.run_on("--speed", 10, "--start", 1000000000, "--log", log, "--",
                            program(name), *words)
                lines = log.read_text().splitlines()
                self.assertGreater(len(lines), 16)
                self.assertEqual(len({line.split()[0] for line in lines}), 1)

    def test_the_summary_counts_commands(self):
        for name in ["calls"] + ["static_calls"] * CAN_FILTER:
            run = self.calls(name, [line for line, _ in LOGGED])
            # a time before 1970 is refused, and so is a tick; those that only read aren't counted
            self.assertRegex(run.stderr, "commands: 5 accepted, 2 refused;")

    @needs_root("becomes another user")
    @unittest.skipUnless(CAN_FILTER, "the kernel lets no filter ask tkrun")
    def test_another_user_commands_no_clocks(self):
        shared = self.share()
        for name in ["calls", "static_calls"]:
            copied = self.folder / name
            copied.write_bytes(open(program(name), "rb").read())
            copied.chmod(0o755)
            run = call([shared / "bin/tkrun", "--quiet", *STILL, "--start", "5", "--", *OTHER,
                        copied],
                       input="\n".join([*FORBIDDEN, "gettime 0"]) + "\n")
            answers = run.stdout.splitlines()
            self.assertEqual([answer.split()[:2] for answer in answers[:-1]],
                             [["-1", "EPERM"]] * len(FORBIDDEN), run.stderr)
            self.assertEqual(answers[-1], "0 - 5.000000000")

    @needs_root("becomes another user")
    @needs("/usr/bin/python3")
    @unittest.skipUnless(CAN_FILTER, "the kernel lets no filter ask tkrun")
    def test_files_that_another_user_gets(self):
        # enum clock_file of run/clocks/host.h: the page, it for a writer, the control, the record, the
        # log, and none
        files = ["--record", self.folder / "r", "--log", self.folder / "l"]
        for user, answers in [([], "0 0 0 0 0 ENOENT"), (OTHER, "0 EACCES EACCES 0 0 ENOENT")]:
            with self.subTest(user):
                shown = call([*map(str, [self.share() / "bin/tkrun", "--quiet", *STILL, *files, "--",
                                         *user, "/usr/bin/python3", "-c", ASKS])])
                self.assertEqual((shown.stdout, shown.stderr), (f"{answers}\n", ""))
                shutil.rmtree(self.folder / "dist")

    @needs_root("becomes another user")
    @unittest.skipUnless(CAN_FILTER, "the kernel lets no filter ask tkrun")
    def test_the_effective_user_of_a_static_program_counts(self):
        for user, answer in [("--euid", "-1 EPERM"), ("--ruid", "0 -")]:
            with self.subTest(user):
                run = self.calls("static_calls", ["settime 0 1500000000 7"], "--quiet",
                                 user=["setpriv", user, "65531"])
                self.assertEqual((run.stdout, run.stderr), (f"{answer}\n", ""))

    @unittest.skipUnless(CAN_FILTER, "the kernel lets no filter ask tkrun")
    @unittest.skipIf(LINUX < (5, 19), "as in test_calls")
    def test_a_rest_that_cannot_be_written(self):
        self.assertEqual(self.run_on(*STILL, "--", program("static_addresses"), "rest"), "")

    @unittest.skipUnless(CAN_FILTER, "the kernel lets no filter ask tkrun")
    def test_wrong_sleeps_of_a_static_program(self):
        host = call([program("static_wrong")]).stdout
        self.assertTrue(re.search("^clock_nanosleep 10 EOPNOTSUPP$|^clock_nanosleep 10 ENOTSUP$",
                                  host, re.MULTILINE), host)
        self.assertEqual(self.run_on(*STILL, "--", program("static_wrong")), host)
