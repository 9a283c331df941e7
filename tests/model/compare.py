#!/usr/bin/env python3
"""Runs random scripts and stamps through the program and through the definitions, and stops at the first output that
differs.

    tests/model/compare.py PROGRAM [SCRIPTS [SEED]]

Each script is replayed, without and with `--keep`. Another, mostly without a fault, is traced with stamps of its own,
and races: alone, where the definitions have one answer, and as three actors, whose sums must agree. Each fifth time
`many` makes the reports of the last five of these, and the report of a steered script is compared with that of its
later records, which continue the clocks. Words that the program refuses are left out, and the last line
counts what was compared.
"""
import os
import random
import subprocess
import sys
import tempfile

import model
from steered import SteeredOrders
from steered_clock import Steered

COUNTERS = [(32, 16_777_216, 24), (8, 256, 0), (16, 16_777_216, 24), (64, 4_194_304, 0), (48, 699_050_667, 24),
            (64, 3_869_339_906, 0), (33, 259, 32), (64, 3_869_339_906, 32), (20, 1_000, 10)]
# numbers that describe no counter: one for each bound
NO_COUNTERS = [(7, 256, 0), (65, 256, 0), (32, 256, 33), (32, 255, 0), (32, 3_869_339_907, 0)]
EDGES = [0, 1, 2, 127, 128, 255, 256, 65_535, 65_536, 10**9, 2**31 - 1, 2**31, 2**32 - 1, 2**32, 2**63, 2**64 - 1, 2**64]


def reading(rng, bits, last):
    pick = rng.random()
    if pick < 0.05:
        return rng.choice(EDGES)
    if pick < 0.1:
        return rng.randrange(2**bits)
    step = rng.randrange(1 << rng.randrange(1, bits))
    return (last + step) % 2**bits


def seconds(rng):
    return rng.choice([rng.randrange(-5, 5), rng.randrange(0, 2**31), rng.choice([0, 8_277_292_035, 8_277_292_036,
                       9_223_372_035, 9_223_372_036, -2**63, 2**63 - 1, 2**63, 7_523_372_036])])


def nanoseconds(rng):
    return rng.choice([0, 1, 999_999_999, 1_000_000_000, 2**32 - 1, 2**32, rng.randrange(10**9)])


def setting(rng, word):
    if word in ("set", "step", "resume"):
        return [seconds(rng), nanoseconds(rng)]
    if word == "freq":
        return [rng.choice([0, 65_536_000, -32_768_000, 32_768_000, -2**63, 2**63 - 1, rng.randrange(-40_000_000, 40_000_000)])]
    if word == "tick":
        return [rng.choice([9_000, 10_000, 11_000, 8_999, 11_001, rng.randrange(9_000, 11_000)])]
    if word == "tai":
        return [rng.choice([0, 37, 100_000, 100_001, -1])]
    return []


def opening(rng):
    """The bits of a counter, its reading, whether the clocks are asleep, and the record that opens them."""
    start = [rng.choice([0, 1_700_000_000, 8_277_292_035, rng.randrange(2**32)]), rng.choice([0, 999_999_999])]
    if rng.random() < 0.2:
        counter = ["openhz", rng.choice([8, 32, 64]), rng.choice([1, 1_000, 24_000_000, 2**32 - 1]), rng.randrange(1, 601)]
        first = rng.randrange(256)
        return counter[1], first, False, counter + [first] + start
    bits, mult, shift = rng.choice(COUNTERS)
    first = rng.randrange(2**bits)
    return bits, first, False, ["open", bits, mult, shift, first] + start


def running(rng):
    """The same for clocks that run: those after another script, and some with a number that they can't have."""
    journal = None
    while journal is None:
        journal = journal_of(bytes_of(rng, records(rng, True, False)))
    numbers = model.numbers_of(journal)
    if rng.random() < 0.2:
        numbers[0] = rng.choice([1, 1_048_575, 2**32, 2**62 - 1, 2**62, 2**62 + 1, 2**64 - 1])
    if rng.random() < 0.15:
        place = rng.randrange(len(numbers))
        numbers[place] = rng.choice([numbers[place] + 1, max(0, numbers[place] - 1), rng.choice(EDGES)])
    counter, place = journal.counter, len(journal.entries)
    record = ["openwords", counter.bits, counter.mult, counter.shift] + numbers
    return counter.bits, journal.reading(place), journal.is_asleep_at(place), record


def change(rng, at):
    """A change of counter at a reading."""
    bits, mult, shift = rng.choice(NO_COUNTERS if rng.random() < 0.02 else COUNTERS)
    first = rng.choice(EDGES) if rng.random() < 0.05 else rng.randrange(2**bits)
    return ["counter", at, bits, mult, shift, first]


def expected(rng, journal, at, clock):
    """A value that a read may expect: mostly the clock's own, and else one beside it, or any."""
    own, pick = journal.value(clock, at), rng.random()
    if pick < 0.7 and 0 <= own < 2**64:
        return own
    return max(0, own + rng.choice([-1, 1])) if pick < 0.9 else rng.choice([0, rng.randrange(2**64)] + EDGES[:-1])


def plain_text(lines):
    """The bytes of records without quotes."""
    return "\n".join(",".join(map(str, line)) for line in lines).encode()


def parsed_lines(lines):
    """The journal at the opening and the rows of these records, or None where they have a fault."""
    try:
        return model.parsed(plain_text(lines))
    except model.Fault:
        return None


def carry_out(session, word, at, fields):
    """Carries out a record."""
    if word == "get":
        session.look(at)
    else:
        session.line(word, at, fields)


def add_values(rng, lines):
    """Adds the expected value to half of the reads."""
    parsed = parsed_lines(lines)
    if parsed is None:
        return
    journal, rows = parsed
    session = model.session_of(journal)
    for line, (word, (at, *fields)) in zip(lines[1:], rows):
        carry_out(session, word, at, fields)
        if word == "get" and rng.random() < 0.5:
            line.append(expected(rng, session.journal, at, fields[0]))


def records(rng, has_changes, has_values=True, may_run=False):
    """The records of a script, some of them with a fault. With changes of counter or `may_run`, some scripts begin from
    running clocks; with values, some reads expect one."""
    is_running = (has_changes or may_run) and rng.random() < 0.15
    has_changes = has_changes and rng.random() < 0.5
    bits, last, asleep, first = running(rng) if is_running else opening(rng)
    lines = [first]
    words = ["update", "set", "step", "freq", "tick", "tai", "suspend", "resume"]
    for _ in range(rng.randrange(40)):
        at = reading(rng, bits, last)
        if rng.random() < 0.4:
            lines.append(["get", at, rng.choice(model.CLOCKS)])
            continue
        if rng.random() < 0.01:
            lines.append(["adjtimex", at, *SteeredOrders(rng.random()).request()])
            continue
        if has_changes and rng.random() < 0.15:
            lines.append(change(rng, at))
            # a refused change leaves the old counter, and the readings after it are wild
            bits, last = lines[-1][2], lines[-1][5]
            continue
        word = "resume" if asleep and rng.random() < 0.6 else rng.choice(words)
        lines.append([word, at] + setting(rng, word))
        if word in ("suspend", "resume"):
            asleep = word == "suspend"
        last = at % 2**bits
    if has_values and rng.random() < 0.5:
        add_values(rng, lines)
    return with_fault(rng, lines) if rng.random() < 0.05 else lines


class ScriptOrders(SteeredOrders):
    """Orders that stay within minutes, because the definitions sum over the whole journal for each read."""

    def gap(self):
        return min(super().gap(), 100 * self.second)


def is_record(line):
    """Whether a script may have these fields after its first record."""
    try:
        model.read_record(2, list(map(str, line)))
    except model.Fault:
        return False
    return True


def steered_lines(rng):
    """The records of a script whose clocks are steered."""
    orders = ScriptOrders(rng.random())
    lines = [orders.opening().split(",")]
    for _ in range(rng.randrange(40)):
        word, *fields = orders.later().split(",")
        if word in ("advance", "late"):
            line = ["get", *fields, rng.choice(model.CLOCKS)]
        else:
            line = ["adjtimex" if word == "ask" else word, *fields]
        lines += filter(is_record, [line])                  # an order may have a greater number, or be a leap
        if rng.random() < 0.02:
            lines += filter(is_record, [change(rng, fields[0])])
    return lines


def cut(lines, place):
    """The record by which a script continues the clocks after the first records of a steered script, and the later
    records. The first `place` records after the opening are left out."""
    journal, rows = parsed_lines(lines)
    session = model.session_of(journal)
    for word, (at, *fields) in rows[:place]:
        carry_out(session, word, at, fields)
    return [session.first_record()] + lines[place + 1:]


# numbers at and beyond the bounds of a discipline's
STEERING_EDGES = [-1, 0, 1, 4, 5, 10, 11, 256, 1_024, 1_025, 8_999, 9_000, 11_000, 11_001, 16_000_000, 16_000_001,
                  500_000 * 2**32, 500_000 * 2**32 + 1, 500_000_000 * 2**32, 2**59 - 1, 2**59, 3 * 2**59, 2**63 - 1,
                  2**63, 9_223_372_037, 9_223_372_038]


def steered_records(rng):
    """The records of a script whose clocks are steered, some of them with a fault. Some continue clocks that run."""
    lines = steered_lines(rng)
    if rng.random() < 0.3:
        lines = cut(lines, rng.randrange(len(lines)))
        if rng.random() < 0.3:
            lines = with_other_number(rng, lines)
    elif rng.random() < 0.05:
        lines[0][-1] = rng.choice([0, 1024, 1025, 2**32, "x", ""])
    if rng.random() < 0.5:
        add_values(rng, lines)
    return with_fault(rng, lines) if rng.random() < 0.05 else lines


def with_other_number(rng, lines):
    """The records with another number of the discipline that they continue."""
    numbers, place = list(lines[0]), rng.randrange(16, 34)
    numbers[place] = rng.choice([numbers[place] + 1, numbers[place] - 1, rng.choice(STEERING_EDGES)])
    changed = [numbers] + lines[1:]
    return changed if begins_few_seconds(changed) else lines


def with_fault(rng, lines):
    """The records with a fault, or with another reading."""
    spoiled = [list(line) for line in lines]
    spoil(rng, spoiled)
    return spoiled if begins_few_seconds(spoiled) else lines


def begins_few_seconds(lines):
    """Whether steered clocks let at most 200 seconds begin at each of these records. The program and the definitions
    let them begin one by one, and a second that was due at the epoch is followed by billions of others."""
    parsed = parsed_lines(lines)
    session = parsed and model.session_of(parsed[0])
    if not isinstance(session, Steered):
        return True
    for word, (at, *fields) in parsed[1]:
        if session.clock.value("realtime", at) // model.NANOS - session.next > 200:
            return False
        carry_out(session, word, at, fields)
    return True


def script(rng, has_changes=True):
    if rng.random() < 0.2:
        return bytes_of(rng, steered_records(rng))
    return bytes_of(rng, records(rng, has_changes))


def is_steered(lines):
    """Whether these records ask for a discipline: by a request, or by more fields of the first record."""
    has_discipline = len(lines[0]) > (16 if lines[0][0] == "openwords" else 7)
    return has_discipline or any(line[0] == "adjtimex" for line in lines)


def unquoted_script(rng, may_run=False):
    """A script without quotes, byte order marks, changes of counter, expected values and a discipline, for a program that
    knows no more of csv than lines and commas. With `may_run`, some begin from running clocks."""
    ending = rng.choice(["\n", "\n", "\r\n", "\r"])
    lines = records(rng, False, False, may_run)
    while is_steered(lines):
        lines = records(rng, False, False, may_run)
    return ending.join(",".join(map(str, line)) for line in lines).encode()


def bytes_of(rng, lines):
    """The bytes of records: half of them plain lines, and else with quotes, carriage returns, or a byte order mark."""
    is_plain, gaps = rng.random() < 0.5, rng.choice([1, 1, 3])
    ending = "\n" if is_plain else rng.choice(["\n", "\r\n", "\r"])
    quoted = 0 if is_plain else rng.choice([0, 0.02, 0.5])
    text = "\ufeff" if not is_plain and rng.random() < 0.1 else ""
    for line in lines:
        fields = [f'"{field}"' if rng.random() < quoted else str(field) for field in line]
        text += ",".join(fields) + ending * rng.randrange(1, gaps + 1)
    return (text.rstrip("\r\n") if rng.random() < 0.3 else ending * rng.randrange(gaps) + text).encode()


def spoil(rng, lines):
    """Puts one fault into a script."""
    line = rng.choice(lines)
    place = rng.randrange(len(line))
    line[place] = rng.choice(["", "+1", "x", " 1", "-", "--1", "1x", '1"', "openhz", "opn", 2**70])
    if rng.random() < 0.3:
        line.append(rng.choice(["", 1]))


def journal_of(text):
    """The journal that a script leaves, or None where it has a fault."""
    try:
        return model.journal_after(*model.parsed(text))
    except model.Fault:
        return None


def sound(rng):
    """A script, mostly one without a fault, and the journal that it leaves."""
    for _ in range(20):
        text = script(rng)
        journal = journal_of(text)
        if journal:
            break
    return text, journal


def stamp(rng, journal, front, is_wild):
    """A stamp near the command before it, or near the one behind it, or anywhere."""
    bits, pick = journal.counter.bits, rng.random()
    if is_wild and pick < 0.1:
        return rng.choice(EDGES)
    if is_wild and pick < 0.3:
        return rng.randrange(2**bits)
    near = journal.reading(min(max(front - journal.opening.count, 0) + rng.randrange(2), len(journal.entries)))
    return (near + rng.randrange(-2, 1 << rng.randrange(1, bits))) % 2**bits


def stamps(rng, journal):
    """The bytes of a stamp file for a journal, some with a fault."""
    last, is_wild = journal.accepted_count(), rng.random() < 0.2
    first = 0 if rng.random() < 0.1 else journal.opening.count
    fronts = [rng.randrange(first, last + 1) for _ in range(rng.randrange(60))]
    if rng.random() < 0.5:
        fronts.sort()
    lines = [[front, stamp(rng, journal, front, is_wild)] for front in fronts]
    if lines and rng.random() < 0.1:
        rng.choice(lines)[0] = rng.choice([last + 1, 2**63, 2**64 - 1])
    if lines and rng.random() < 0.05:
        spoil(rng, lines)
    return bytes_of(rng, lines)


def wanted(make, *given):
    """The status, the output and the fault that the definitions have."""
    try:
        answer = make(*given)
    except model.Fault as fault:
        return 1, "", f"tkcore: {fault}\n"
    status, lines = answer if isinstance(answer, tuple) else (0, answer)
    return status, "".join(line + "\n" for line in lines), ""


def ran(program, words, given=b""):
    done = subprocess.run([program] + words, input=given, capture_output=True, check=False)
    return done.returncode, done.stdout.decode(), done.stderr.decode()


def file_of(folder, name, text):
    path = os.path.join(folder, name)
    with open(path, "wb") as file:
        file.write(text)
    return path


class Comparison:
    """The program, a folder for its files, the random numbers, and how often each kind was compared."""

    def __init__(self, program, folder, seed):
        self.program, self.folder, self.seed = program, folder, seed
        self.rng = random.Random(seed)
        self.counts = {}

    def check(self, kind, actual, expected, *texts):
        if actual != expected:
            shown = "\n---\n".join(text.decode() for text in texts)
            print(f"{kind} of seed {self.seed} differs:\n{shown}\nprogram: {actual}\nmodel: {expected}")
            sys.exit(1)
        self.counts[kind] = self.counts.get(kind, 0) + 1

    def takes(self, words):
        """Does the program know these words, before the name of a file?"""
        script = file_of(self.folder, "least", b"open,8,256,0,0,0,0\n")
        return ran(self.program, words + [script])[0] == 0

    def replay(self, text):
        self.check("replay", ran(self.program, [], text), wanted(model.replay, text), text)

    def keep(self, text):
        """The same report by a journal that is folded to its last entries."""
        entries = self.rng.choice([1, 2, 1_000, 524_288])
        found = ran(self.program, ["replay", "--keep", str(entries)], text)
        self.check("keep", found, wanted(model.replay, text), str(entries).encode(), text)

    def rest(self, lines):
        """A script that continues steered clocks has the rest of the report of the script that they come from."""
        place = self.rng.randrange(len(lines))
        whole, rest = (plain_text(some) for some in (lines, cut(lines, place)))
        status, report, fault = ran(self.program, [], whole)
        first, *others = report.splitlines(True)
        self.check("rest", ran(self.program, [], rest), (status, first + "".join(others[place:]), fault), whole, rest)

    def trace(self, text, journal):
        marks = stamps(self.rng, journal) if journal else b"0,0\n"
        clock = self.rng.choice(model.CLOCKS)
        names = [file_of(self.folder, "script", text), file_of(self.folder, "stamps", marks)]
        actual = ran(self.program, ["trace", clock] + names)
        self.check("trace", actual, wanted(model.trace, clock, text, marks), clock.encode(), text, marks)

    def many(self, texts):
        names = [file_of(self.folder, f"script{i}", text) for i, text in enumerate(texts)]
        workers = self.rng.choice([1, 2, 3, 4, 64])
        actual = ran(self.program, ["many", str(workers)] + names)
        self.check("many", actual, wanted(model.many, texts), *texts)

    def race(self, text):
        """One actor exactly, and then the same script as three actors, whose sums must agree."""
        name = file_of(self.folder, "racer", text)
        step = self.rng.choice([0, 1, 1_000, 2**31, self.rng.randrange(2**64)])
        actual = ran(self.program, ["race", str(step), name])
        self.check("race", actual, wanted(model.race, step, text), str(step).encode(), text)
        if actual[0] == 0:
            self.race_together(step, name, text, sum(map(int, actual[1].split("\n")[1].split(",")[2:])))

    def race_together(self, step, name, text, orders):
        status, lines, fault = ran(self.program, ["race", str(step)] + [name] * 3)
        (_, entries), *actors = [line.split(",") for line in lines.split()]
        counted = [int(accepted) + int(refused) for _, _, accepted, refused in actors]
        accepted = sum(int(actor[2]) for actor in actors)
        ids = [actor[1] for actor in actors]
        self.check("sums of a race", (status, fault, ids, counted, accepted),
                   (0, "", ["0", "1", "2"], [orders] * 3, int(entries)), text)


def main():
    program, count = os.path.abspath(sys.argv[1]), int(sys.argv[2]) if len(sys.argv) > 2 else 1_000
    seed = int(sys.argv[3]) if len(sys.argv) > 3 else random.randrange(2**32)
    with tempfile.TemporaryDirectory() as folder:
        both, last = Comparison(program, folder, seed), []
        has_keep = ran(both.program, ["replay", "--keep", "1"], b"open,8,256,0,0,0,0\n")[0] == 0
        has_many, has_race = both.takes(["many", "1"]), both.takes(["race", "1"])
        for number in range(count):
            text = script(both.rng)
            both.replay(text)
            if has_keep:
                both.keep(text)
            if number % 5 == 0:
                both.rest(steered_lines(both.rng))
            text, journal = sound(both.rng)
            both.trace(text, journal)
            last = last[-4:] + [text]
            if has_many and number % 5 == 4:
                both.many(last)
            if has_race:
                both.race(text)
    done = ", ".join(f"{number} of {kind}" for kind, number in both.counts.items())
    print(f"seed {seed}: each output is as the definitions have it ({done})")


if __name__ == "__main__":
    main()
