"""Requests of adjtimex: each field of each reply that a program gets is that of the definitions in
tests/model, and each field of the record is the program's."""
import random
import re
import sys
import unittest

from runs import CAN_FILTER, ROOT, STILL, TKRUN, RunTest, call, program

sys.path.insert(0, str(ROOT / "tests/model"))

# pylint: disable=wrong-import-position
import model
import ntp
from ntp import FIELDS, Timex
from steered_clock import Refused, Steered
from steered_session import SteeredSession

STATES = ["Ok", "Ins", "Del", "Oop", "Wait", "Error"]  # by their numbers, of adjtimex(2)
CALLS = ["adjtimex", "sys_adjtimex", "ntp_adjtime", "clock_adjtime 0", "sys_clock_adjtime 0"]
BITS = {ntp.OFFSET: ["offset"], ntp.FREQUENCY: ["freq"], ntp.MAXERROR: ["maxerror"],
        ntp.ESTERROR: ["esterror"], ntp.STATUS: ["status"], ntp.TIMECONST: ["constant"],
        ntp.TAI: ["constant"], ntp.SETOFFSET: ["sec", "sub"], ntp.TICK: ["tick"]}
START = 1483228700, 123456789  # 100 s before a leap second


def random_request(draw):
    """A request whose fields all have different numbers, also those that it doesn't select."""
    modes = draw.choice([
        0, draw.choice([0x8001, 0xa001]), *[draw.choice(list(BITS)) for _ in range(3)],
        *[sum(draw.sample([*BITS, ntp.NANO, ntp.MICRO], draw.randrange(2, 6))) for _ in range(4)]])
    if modes & ntp.SETOFFSET:
        modes &= ~ntp.MICRO
    return Timex(modes, offset=draw.randrange(-10**6, 10**6), freq=draw.randrange(-40_000_000, 40_000_000),
                 maxerror=draw.randrange(-5, 17_000_000), esterror=draw.randrange(-5, 17_000_000),
                 status=draw.choice([0, 1, 0x11, 0x21, 0x40, 0x41, 0x81, 0x2001]),
                 constant=draw.randrange(-1, 12), tick=draw.randrange(8_990, 11_010),
                 sec=draw.randrange(-50, 50), sub=draw.randrange(-1, 1_000_001))


def random_lines(seed, count):
    """The requests of a run, and its lines for calls.c, with sleeps between them."""
    draw = random.Random(seed)
    requests, lines = [], []
    for _ in range(count):
        request = random_request(draw)
        requests.append(request)
        fields = " ".join(f"{name}={getattr(request, name)}" for name in FIELDS)
        lines.append(f"{draw.choice(CALLS)} {fields}")
        if draw.randrange(2):
            lines.append(f"sleep {draw.choice([0, 0, 0, 30])} {draw.randrange(10**9)}")
    return requests, lines


def selected(request):
    """A request with 0 in the fields that it doesn't select."""
    names = {name for bit, names in BITS.items() if request.modes & bit for name in names}
    if request.modes == 0xa001:
        names = set()
    return Timex(request.modes, **{name: getattr(request, name) for name in names})


class Model:
    """The clocks of the definitions, which follow a record."""

    def __init__(self, record):
        opening, *rest = record.splitlines()
        journal, self.rows = model.parsed("\n".join([opening, *rest]).encode())
        self.session = SteeredSession(journal)
        first = journal.opening
        Steered.__init__(self.session, first.counter, first.reading, first.real_offset, first.hz)

    def replies(self):
        """The reply to each request: the fields of Steered.adjtimex, or a refusal."""
        replies = []
        for word, (reading, *fields) in self.rows:
            try:
                if word == "get":
                    self.session.advance(reading)
                elif word == "adjtimex":
                    replies.append(self.session.adjtimex(reading, Timex(*fields)))
                else:
                    self.session.apply(reading, word, *fields)
            except Refused as refused:
                replies += [str(refused)] * (word == "adjtimex")
        return replies


def parsed_reply(answer):
    """The fields of a program's reply, in the order of the definitions', or its errno."""
    result, error, _, time, *rest = answer.replace(",", "").split()
    if int(result) < 0:
        return error
    state, (sec, sub) = STATES[int(result)], map(int, time.split("."))
    return (state, sec, sub, *map(int, rest[:8]))


class Steering(RunTest):
    PROGRAM = "calls"

    def run_listed(self, lines, *options, start="{}.{:09}".format(*START)):
        """Makes the calls of these lines. Returns their answers and the record."""
        record = self.folder / "r"
        run = call([TKRUN, "--quiet", *STILL, "--start", start, "--record", record, "--check",
                    *options, "--", program(self.PROGRAM)], input="\n".join(lines) + "\n")
        self.assertEqual((run.returncode, run.stderr), (0, ""))
        return run.stdout.splitlines(), record.read_text()

    def test_replies_are_those_of_the_definitions(self):
        for seed in range(6):
            requests, lines = random_lines(seed, 150)
            answers, record = self.run_listed(lines)
            replies = [(line, parsed_reply(answer)) for line, answer in zip(lines, answers)
                       if "adj" in line]
            expected = [reply if isinstance(reply, tuple) else "EINVAL"
                        for reply in Model(record).replies()]
            for (line, reply), right in zip(replies, expected, strict=True):
                with self.subTest(seed=seed, line=line):
                    self.assertEqual(reply, right)
            self.check_record(requests, record)

    def check_record(self, requests, record):
        """The record has each request, with 0 in the fields that it doesn't select."""
        rows = [line.split(",")[2:] for line in record.splitlines() if line.startswith("adjtimex,")]
        self.assertEqual([Timex(*map(int, row)) for row in rows],
                         [selected(request) for request in requests])

    def test_all_states_of_a_leap_second(self):
        for bit, states in [(0x10, [1, 1, 3, 4, 4]), (0x20, [2, 4, 4, 4, 4])]:
            lines = [f"settimeofday {1483228800 - 3} 250000", f"adjtimex modes=20 maxerror=0 status={1 + bit}",
                     *["sleep 1 0", "adjtimex"] * 5]
            answers, _ = self.run_listed(lines)
            self.assertEqual([int(answer.split()[0]) for answer in answers[3::2]], states)

    def test_a_record_has_no_memory_of_the_program(self):
        # adjtime sets three fields in a static program, so others are what was on the stack
        records = []
        for words in [["-5", "0x7fff12345678"], ["77", "0"]]:
            fields = [f"{name}={value}" for name, value in zip(FIELDS[1:], words * 5)]
            lines = [f"adjtimex modes={modes} {' '.join(fields)}"
                     for modes in (0, 0x1000, 0x2000, 0xa001)]
            records.append(self.run_listed(["adjtime 0 5", *lines, "adjtime"])[1])
        self.assertEqual(*records)
        self.assertNotRegex(records[0], "77|0x7fff12345678|140733")

    def test_the_log_has_no_memory_of_the_program(self):
        log = self.folder / "log"
        self.run_listed(["adjtimex modes=2 freq=5 offset=77 maxerror=77 esterror=77 status=77 "
                         "constant=77 tick=77 sec=77 sub=77", "adjtime 0 9"], "--log", log)
        # a static program's call has the kernel's name
        first, second = (re.sub("^[0-9]+ (clock_)?(adjtimex?)", "adjtimex", line)
                         for line in log.read_text().splitlines())
        self.assertEqual(first, "adjtimex modes=0x2 offset=0 freq=5 maxerror=0 esterror=0 tick=0 "
                                "status=0 constant=0 time=0.0 = 5")
        self.assertRegex(second, "^adjtimex modes=0x8001 offset=9 freq=0 maxerror=0 esterror=0 "
                                 "tick=0 status=0 constant=0 time=0.0 = 5$")


@unittest.skipUnless(CAN_FILTER, "the kernel lets no filter ask tkrun")
class StaticSteering(Steering):
    PROGRAM = "static_calls"
