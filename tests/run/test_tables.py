"""What each call that reads or sets a clock returns and stores (tests/run/calls.c). No time passes but
by sleeps, and every value has parts of a second, so the expected ones are sums. Refusals are those of
the host's kernel, for the same calls by a program that may set nothing."""
import unittest

from runs import CAN_FILTER, STILL, TKRUN, RunTest, call, host_call, program

START, UPTIME = "1000000000.123456789", "7.654321098"
OPENED = [*STILL, "--start", START, "--uptime", UPTIME]
ZERO = " ".join("0" * 8)  # the fields of pulses, which no clock has

# each call that reads, at the start
READS = [
    ("gettime 0", "0 - 1000000000.123456789"), ("sys_gettime 0", "0 - 1000000000.123456789"),
    ("gettime 1", "0 - 7.654321098"), ("gettime 4", "0 - 7.654321098"),
    ("gettime 5", "0 - 1000000000.123456789"), ("gettime 6", "0 - 7.654321098"),
    ("gettime 7", "0 - 7.654321098"), ("sys_gettime 7", "0 - 7.654321098"),
    ("gettime 8", "0 - 1000000000.123456789"), ("gettime 9", "0 - 7.654321098"),
    ("gettime 11", "0 - 1000000000.123456789"), ("sys_gettime 11", "0 - 1000000000.123456789"),
    ("gettime 10", "-1 EINVAL 77.000000077"), ("gettime 77", "-1 EINVAL 77.000000077"),
    ("sys_gettime 77", "-1 EINVAL 77.000000077"), ("gettime -1", "-1 EINVAL 77.000000077"),
    *((f"{call} {clock}", "0 - 0.000000001")
      for call in ("getres", "sys_getres") for clock in (0, 1, 4, 7, 11)),
    ("getres 77", "-1 EINVAL 77.000000077"), ("sys_getres 77", "-1 EINVAL 77.000000077"),
    ("gettimeofday", "0 - 1000000000.123456 0 0"), ("micros", "0 - 1000000000.123456"),
    ("sys_gettimeofday", "0 - 1000000000.123456 0 0"),
    ("time", "1000000000 - 1000000000 1000000000"),
    ("sys_time", "1000000000 - 1000000000 1000000000"),
    ("timespec_get 1", "1 - 1000000000.123456789"), ("timespec_get 2", "0 - 77.000000077"),
    ("ftime", "0 - 1000000000.123 0 0"),
    ("ntp_gettime", "5 - 1000000000.123456 16000000 16000000 0"),
    ("old_ntp_gettime", "5 - 1000000000.123456 16000000 16000000 0"),
]

# a set, and what is read after it: the time and the zone have different numbers
SETS = [
    ("settimeofday 2147483640 200001", "0 -"), ("gettimeofday", "0 - 2147483640.200001 0 0"),
    ("sys_settimeofday 2147483641 999999 -60 1", "0 -"),
    ("gettimeofday", "0 - 2147483641.999999 -60 1"), ("micros", "0 - 2147483641.999999"),
    ("settimeofday 2147483642 999999 50 2", "-1 EINVAL"),  # by the C library
    ("gettime 0", "0 - 2147483641.999999000"), ("gettime 1", "0 - 7.654321098"),
    ("sys_settimeofday 1500000000 7 30 2", "0 -"), ("sys_gettimeofday", "0 - 1500000000.000007 30 2"),
    ("setzone 900 3", "0 -"), ("gettimeofday", "0 - 1500000000.000007 900 3"),
    ("setzone -900 4", "0 -"), ("gettimeofday", "0 - 1500000000.000007 -900 4"),
    ("setzone 901 5", "-1 EINVAL"), ("setzone -901 5", "-1 EINVAL"),
    *((f"{call} {words}", "-1 EINVAL") for call in ("settimeofday", "sys_settimeofday") for words in (
        "1600000000 1000000 1 1", "1600000000 -1 1 1", "1600000000 5 901 1", "-1 5", "-1 5 1 1",
        "8277292036 0 1 1", "1600000000 1000000", "1600000000 -1")),
    ("gettimeofday", "0 - 1500000000.000007 -900 4"),
    ("settime 0 1700000000 999999999", "0 -"), ("gettime 0", "0 - 1700000000.999999999"),
    ("gettime 5", "0 - 1700000000.999999999"), ("gettime 11", "0 - 1700000000.999999999"),
    ("ftime", "0 - 1700000000.999 0 0"), ("gettime 7", "0 - 7.654321098"),
    ("sys_settime 0 1700000001 1", "0 -"), ("timespec_get 1", "1 - 1700000001.000000001"),
    *((f"{call} {words}", "-1 EINVAL") for call in ("settime", "sys_settime") for words in (
        "0 1600000000 1000000000", "0 1600000000 -1", "0 -1 5", "0 8277292036 0", "1 5 5", "4 5 5",
        "5 5 5", "6 5 5", "7 5 5", "11 5 5", "77 5 5", "0 7 654321097")),
    ("gettime 0", "0 - 1700000001.000000001"),
    ("settime 0 7 654321098", "0 -"), ("gettime 0", "0 - 7.654321098"),
    ("settime 0 8277292035 999999999", "0 -"), ("gettime 0", "0 - 8277292035.999999999"),
    ("stime 1234567890", "0 -"), ("gettime 0", "0 - 1234567890.000000000"),
    # a wait ends a cycle after its time
    ("sleep 3 345678901", "0 - 11.000000000"), ("gettime 0", "0 - 1234567893.345678902"),
    ("micros", "0 - 1234567893.345678"), ("ftime", "0 - 1234567893.345 0 0"),
    ("time", "1234567893 - 1234567893 1234567893"), ("gettime 4", "0 - 11.000000000"),
    ("sleep_until 0 1234567893 345678903", "0 - 11.000000002"),
    ("sleep_until 1 11 500000002", "0 - 11.500000003"),
    ("sleep_until 7 12 600000003", "0 - 12.600000004"),
    ("sleep_until 1 5 0", "0 - 12.600000004"), ("micros", "0 - 1234567894.945678"),
]

REST = f", 1 32768000, {ZERO}"  # precision and tolerance, and the fields of pulses

# a request, and what all calls show of it: each field has another number
STEERS = [
    ("adjtimex modes=0xc maxerror=12 esterror=13",
     "5 - 12 1000000000.123456 0 0 12 13 64 2 10000 0" + REST),
    ("ntp_gettime", "5 - 1000000000.123456 12 13 0"),
    ("adjtimex modes=0x80 constant=37",
     "5 - 128 1000000000.123456 0 0 12 13 64 2 10000 37" + REST),
    ("ntp_gettime", "5 - 1000000000.123456 12 13 37"), ("gettime 11", "0 - 1000000037.123456789"),
    ("adjtimex modes=0x50 status=0x11", "0 - 80 1000000000.123456 0 0 12 13 17 2 10000 37" + REST),
    ("adjtimex modes=0x20 constant=3", "0 - 32 1000000000.123456 0 0 12 13 17 7 10000 37" + REST),
    ("adjtimex modes=0x2000", "0 - 8192 1000000000.123456789 0 0 12 13 8209 7 10000 37" + REST),
    ("sys_adjtimex", "0 - 0 1000000000.123456789 0 0 12 13 8209 7 10000 37" + REST),
    ("clock_adjtime 0 modes=0x4002 tick=10005 freq=65536",
     "0 - 16386 1000000000.123456789 0 65536 12 13 8209 7 10005 37" + REST),
    ("ntp_gettime", "0 - 1000000000.123456789 12 13 37"),
    ("ntp_adjtime modes=0x1000", "0 - 4096 1000000000.123456 0 65536 12 13 17 7 10005 37" + REST),
    ("adjtime 3 250000", "0 - 0.000000"), ("adjtime", "0 - 3.250000"),
    ("adjtime -3 -250000", "0 - 3.250000"), ("adjtime", "0 - -3.-250000"),
    ("adjtime 0 0", "0 - -3.-250000"), ("adjtime", "0 - 0.000000"),
    ("adjtime 5000 0", "-1 EINVAL 77.000077"),
    ("adjtimex modes=0x2100 sec=100 sub=500000000",
     "5 - 8448 1000000100.623456789 0 65536 16000000 16000000 8273 7 10005 37" + REST),
    ("gettime 0", "0 - 1000000100.623456789"), ("gettime 1", "0 - 7.654321098"),
]

# between a SUSPEND and a RESUME all sets are refused, and each clock keeps its time
ASLEEP = "openhz,64,1000000000,1,0,1000000000,123456789,250\nsuspend,0\n"
SLEEPING = [
    ("gettime 0", "0 - 1000000000.123456789"), ("gettime 1", "0 - 0.000000000"),
    ("settime 0 1500000000 0", "-1 EAGAIN"), ("sys_settime 0 1500000000 0", "-1 EAGAIN"),
    ("settimeofday 1500000000 0", "-1 EAGAIN"), ("sys_settimeofday 1500000000 0", "-1 EAGAIN"),
    ("stime 1500000000", "-1 EAGAIN"), ("settime 0 -1 0", "-1 EAGAIN"),
    ("settime 0 5 1000000000", "-1 EINVAL"), ("setzone 60 1", "0 -"),
    ("gettimeofday", "0 - 1000000000.123456 60 1"),
]
ASLEEP_STEERING = ["adjtimex modes=2 freq=5", "sys_adjtimex modes=2 freq=5", "adjtimex modes=0",
                   "clock_adjtime 0 modes=16 status=64", "ntp_adjtime modes=0x100 sec=5 sub=5"]

# after a suspension, BOOTTIME and its clock of alarms differ from MONOTONIC
RESUMED = "openhz,64,1000000000,1,0,1000,0\nsuspend,0\nresume,0,3600,5\n"
AWAKE = [
    ("gettime 1", "0 - 0.000000000"), ("gettime 7", "0 - 3600.000000005"),
    ("gettime 9", "0 - 3600.000000005"), ("gettime 0", "0 - 4600.000000005"),
    ("gettime 8", "0 - 4600.000000005"), ("sys_gettime 9", "0 - 3600.000000005"),
    ("sleep_until 9 3602 5", "0 - 2.000000001"), ("sleep_until 8 4604 5", "0 - 4.000000001"),
]

# only a span of BOOTTIME contains a suspension
SUSPENDED = "openhz,64,1000000000,1,0,1000,0\nsuspend,1000000000\nresume,2000000000,3600,0\n"
SPANS = [("sleep_on 7 100 0", "0 - 1.000000000"), ("sleep_on 7 5 0", "0 - 6.000000001"),
         ("sleep_on 0 5 0", "0 - 11.000000002"), ("sleep_on 1 5 0", "0 - 16.000000003")]

# calls that a program without the right to set a clock makes. The clocks of alarms, 8 and 9, depend on
# the host's hardware
REFUSED = [
    *(f"{call} {clock}" for call in ("gettime", "sys_gettime", "getres", "sys_getres")
      for clock in (*range(8), 10, 11, 12, 15, 24, 77, -1, -2, -3, -6, -1000)),
    "gettimeofday", "sys_gettimeofday", "micros", "time", "sys_time", "ftime", "ntp_gettime",
    "old_ntp_gettime", *(f"timespec_get {base}" for base in (0, 1, 2, -1)),
    *(f"{call} {clock} {words}" for call in ("settime", "sys_settime") for clock in (*range(12), 77)
      for words in ("1600000000 5", "1600000000 1000000000", "-1 5", "1600000000 -1")),
    *(f"{call} {words}" for call in ("settimeofday", "sys_settimeofday") for words in (
        "1600000000 5", "1600000000 1000000", "1600000000 -1", "-1 5", "1600000000 5 60 1",
        "1600000000 5 901 1", "1600000000 1000000 901 1", "1600000000 1000000 60 1")),
    "setzone 60 1", "setzone 901 1", "setzone -901 1",
    *(f"{call} modes={modes} {fields}"
      for call in ("adjtimex", "sys_adjtimex", "ntp_adjtime", "clock_adjtime 0", "sys_clock_adjtime 0")
      for modes, fields in (
          (0, ""), (0, "tick=5"), (2, "freq=5"), (2, "freq=140737488355329"), (1, "offset=5"),
          (4, "maxerror=5"), (8, "esterror=5"), (0x10, "status=1"), (0x20, "constant=5"),
          (0x80, "constant=37"), (0x80, "constant=-1"), (0x4000, "tick=10000"),
          (0x4000, "tick=8999"), (0x4000, "tick=11001"), (0x1000, ""), (0x2000, ""),
          (0x100, "sec=5 sub=5"), (0x100, "sec=5 sub=1000000"), (0x2100, "sec=5 sub=999999999"),
          (0x2100, "sec=5 sub=1000000000"), (0x100, "sec=5 sub=-1"), (0x8001, "offset=5"),
          (0x8000, "offset=5"), (0xa001, "offset=5"), (0xa000, "offset=5"), (0x8002, "freq=5"),
          (0xc001, "offset=5 tick=5"), (0x8101, "sec=5 sub=5"), (0xa101, "sec=5 sub=5"),
          (0xa003, "freq=5"), (0xa003, "freq=140737488355329"), (0xe001, "tick=5"),
          (0xa03d, "status=1 constant=5"), (0xa002, "freq=5"))),
    *(f"{call} {clock} modes={modes} freq=5" for call in ("clock_adjtime", "sys_clock_adjtime")
      for clock in (1, 4, 5, 6, 7, 8, 9, 10, 11, 77) for modes in (0, 2)),
    "adjtime 0 5", "adjtime", "adjtime 5000 0", "adjtime -5000 0", "adjtime 0 -5",
    "adjtime 0 3000000000", "adjtime 2145 0", "adjtime 2146 0", "adjtime 2145 1000000",
    "adjtime -2145 0", "adjtime -2146 0", "adjtime -2145 -1000000",
]


def outcome(line, answer):
    """What the host and tkrun share of an answer: whether the call succeeded, its errno, and which
    fields it has left as they were."""
    result, error, *fields = answer.split()
    left = [field == "77" for field in " ".join(fields).replace(",", " ").replace(".", " ").split()]
    return line, int(result) < 0, error, left


class Tables(RunTest):
    PROGRAMS = ["calls"]

    def listed(self, lines, *options, name="calls"):
        """Makes the calls of these lines on the clocks. Returns the answers."""
        run = call([TKRUN, "--quiet", *map(str, options), "--", program(name)],
                   input="\n".join(lines) + "\n")
        self.assertEqual((run.returncode, run.stderr), (0, ""))
        return run.stdout.splitlines()

    def check_table(self, table, *options):
        """Makes all calls of a table, without a record and with one, whose reads are calls."""
        for name in self.PROGRAMS:
            for record in [[], ["--check", "--log", self.folder / "log"]]:
                with self.subTest(name, record=record):
                    answers = self.listed([line for line, _ in table], *options, *record, name=name)
                    self.assertEqual([(line, answer) for (line, _), answer in zip(table, answers)],
                                     table)

    def test_reads(self):
        self.check_table(READS, *OPENED)

    def test_sets(self):
        self.check_table(SETS, *OPENED)

    def test_requests(self):
        self.check_table(STEERS, *OPENED)

    def test_calls_while_the_clocks_are_asleep(self):
        script = self.file("s", ASLEEP)
        self.check_table(SLEEPING, *STILL, "--script", script)
        for name in self.PROGRAMS:
            answers = self.listed(ASLEEP_STEERING, *STILL, "--script", script, name=name)
            self.assertEqual([answer.split()[:2] for answer in answers],
                             [["-1", "EAGAIN"]] * len(answers))

    def test_calls_after_a_suspension(self):
        self.check_table(AWAKE, *STILL, "--script", self.file("s", RESUMED))

    def test_spans_over_a_suspension(self):
        self.check_table(SPANS, *STILL, "--script", self.file("s", SUSPENDED))

    def test_refusals_are_those_of_the_host(self):
        for name in self.PROGRAMS:
            host = host_call(program(name), "\n".join(REFUSED) + "\n").splitlines()
            ours = self.listed(REFUSED, *STILL, "--deny-set", name=name)
            self.assertEqual(len(host), len(REFUSED))
            for line, expected, answer in zip(REFUSED, host, ours):
                with self.subTest(name, line=line):
                    self.assertEqual(outcome(line, answer), outcome(line, expected))


@unittest.skipUnless(CAN_FILTER, "the kernel lets no filter ask tkrun")
class StaticTables(Tables):
    PROGRAMS = ["static_calls"]
