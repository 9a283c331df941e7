#!/usr/bin/env python3
"""Computes the program's output from the definitions alone: sums over the whole journal, in
unbounded integers.

It shares no code and no method with the program, which keeps a running state. The examples' outputs
were made by it and checked manually, and `tests/model/compare.py` runs random scripts and stamps
through both.

    tests/model/model.py < script
    tests/model/model.py trace CLOCK SCRIPT STAMPS
    tests/model/model.py many WORKERS FILE..
    tests/model/model.py race STEP FILE

A race is modelled for one actor only, since its commands have a single possible order.
"""
import csv
import datetime
import io
import sys
from dataclasses import dataclass, field

NANOS = 10**9
MONOTONIC_LIMIT = 946_080_000 * NANOS
VALUE_LIMIT = 9_223_372_036 * NANOS
SETTABLE_LIMIT = 8_277_292_036
TAI_LIMIT = 100_000  # s
RAW_END = 1_060_000_000  # s
JOURNAL_LIMIT = 1_048_576
LEAST_FREQUENCY, LEAST_TICK = -32_768_000, 9_000
FRONT_LIMIT = 2**62
CLOCKS = ["realtime", "monotonic", "boottime", "tai", "realtime_coarse", "monotonic_coarse", "monotonic_raw"]


class Fault(Exception):
    """The first fault, with the program's text."""


def named(name, read, *given):
    """Returns the result of `read`. Its fault gets the name of the input as a prefix."""
    try:
        return read(*given)
    except Fault as fault:
        raise Fault(f"{name}: {fault}") from None


@dataclass(frozen=True)
class Counter:
    bits: int
    mult: int
    shift: int

    def fault(self):
        """Returns the text of the first fault of these numbers, or None if they describe a counter."""
        if not 8 <= self.bits <= 64:
            return "a reading does not have 8 to 64 bits"
        if self.shift > 32:
            return "the shift is above 32"
        if self.mult < 256:
            return "the mult is below 256"
        if self.mult + self.mult * 11 // 100 > 2**32 - 1:
            return "the mult and 11 percent of it do not fit 32 bits"
        return None

    def gap(self, a, b):
        return (b - a) % 2**self.bits

    def is_behind(self, a, b):
        return self.gap(a, b) > (2**self.bits - 1) >> 1

    def multiplier(self, frequency, tick):
        held = max(-32_768_000, min(32_768_000, frequency))
        return self.mult * (tick * 6_553_600 + held) // 65_536_000_000


def from_hz(bits, hz, maxsec):
    """Returns the counter of a frequency in Hz, or None.

    Its shift is the first one from 32 down whose mult doesn't overflow in maxsec seconds.
    """
    if not (8 <= bits <= 64 and hz >= 1 and 1 <= maxsec <= 600):
        return None
    room = 32 - ((maxsec * hz) >> 32).bit_length()
    shift = next(s for s in range(32, 0, -1) if ((NANOS << s) + hz // 2) // hz >> room == 0)
    mult = ((NANOS << shift) + hz // 2) // hz
    if mult + mult * 11 // 100 > 2**32 - 1:
        mult, shift = mult // 2, shift - 1
    return Counter(bits, mult, shift)


@dataclass(frozen=True)
class Opening:
    """The clocks at the start of a journal: `count` commands were accepted before it."""
    counter: Counter
    reading: int
    # REALTIME and BOOTTIME minus MONOTONIC, in ns
    real_offset: int
    boot_offset: int = 0
    tai: int = 0
    # MONOTONIC and MONOTONIC_RAW, in 2^-shift ns
    units: int = 0
    raw_units: int = 0
    frequency: int = 0
    tick: int = 10_000
    is_asleep: bool = False
    count: int = 0
    # the parts of a second that phases are divided into, if a discipline steers the clocks
    hz: int | None = None
    # the numbers of that discipline, if the clocks ran before
    discipline: tuple | None = None


@dataclass
class Journal:
    opening: Opening
    entries: list = field(default_factory=list)

    @property
    def counter(self):
        return self.opening.counter

    def accepted_count(self):
        return self.opening.count + len(self.entries)

    def reading(self, place):
        return self.entries[place - 1][1] if place else self.opening.reading

    def is_asleep_at(self, place):
        return self.entries[place - 1][0] == "suspend" if place else self.opening.is_asleep

    def prefix(self, place):
        return Journal(self.opening, self.entries[:place])

    def followed_by(self, entry):
        return Journal(self.opening, self.entries + [entry])

    def awake_cycles(self, place):
        return sum(self.counter.gap(self.reading(k - 1), self.reading(k))
                   for k in range(1, place + 1) if not self.is_asleep_at(k - 1))

    def in_force(self, word, place, opening):
        settings = [value for entry in self.entries[:place] if (value := set_by(entry, word)) is not None]
        return settings[-1] if settings else opening

    def multiplier(self, place):
        return self.counter.multiplier(self.in_force("freq", place, self.opening.frequency),
                                       self.in_force("tick", place, self.opening.tick))

    def units(self):
        """Returns MONOTONIC at the last entry, in 2^-shift ns.

        It is MONOTONIC at the opening, and the sum of cycles times multiplier over the stretches.
        """
        steers = [k for k, e in enumerate(self.entries, 1) if e[0] in ("freq", "tick")]
        bounds = [0] + steers + [len(self.entries)]
        gained = sum((self.awake_cycles(b) - self.awake_cycles(a)) * self.multiplier(a) for a, b in zip(bounds, bounds[1:]))
        return self.opening.units + gained

    def forward_gap(self, reading):
        last = self.reading(len(self.entries))
        if self.is_asleep_at(len(self.entries)) or self.counter.is_behind(last, reading):
            return 0
        return self.counter.gap(last, reading)

    def units_at(self, reading):
        return self.units() + self.forward_gap(reading) * self.multiplier(len(self.entries))

    def raw_units_at(self, reading):
        cycles = self.awake_cycles(len(self.entries)) + self.forward_gap(reading)
        return self.opening.raw_units + cycles * self.counter.mult

    def monotonic(self, reading):
        return self.units_at(reading) >> self.counter.shift

    def raw(self, reading):
        return self.raw_units_at(reading) >> self.counter.shift

    def changed(self, reading, counter, first):
        """Returns the journal over another counter: it begins where this one is at the reading."""
        place, shift = len(self.entries), self.counter.shift
        return Journal(Opening(
            counter, first, self.real_offset(), self.boot_offset(), self.in_force("tai", place, self.opening.tai),
            (self.units_at(reading) << counter.shift) >> shift, (self.raw_units_at(reading) << counter.shift) >> shift,
            self.in_force("freq", place, self.opening.frequency), self.in_force("tick", place, self.opening.tick),
            self.is_asleep_at(place), self.accepted_count() + 1))

    def real_offset(self):
        sets = [k for k, e in enumerate(self.entries, 1) if e[0] == "set"]
        start = sets[-1] if sets else 0
        base = self.opening.real_offset
        if sets:
            _, reading, time = self.entries[start - 1]
            base = time - self.prefix(start).monotonic(reading)
        return base + sum(moved_by(entry) for entry in self.entries[start:])

    def boot_offset(self):
        return self.opening.boot_offset + sum(value for name, _, value in self.entries if name == "resume")

    def value(self, clock, reading):
        if clock.endswith("_coarse"):
            clock, reading = clock[:-7], self.reading(len(self.entries))
        if clock == "monotonic_raw":
            return self.raw(reading)
        monotonic = self.monotonic(reading)
        if clock == "boottime":
            return monotonic + self.boot_offset()
        if clock == "realtime":
            return monotonic + self.real_offset()
        if clock == "tai":
            return monotonic + self.real_offset() + NANOS * self.in_force("tai", len(self.entries), self.opening.tai)
        return monotonic


def set_by(entry, word):
    """Returns the frequency, the tick or the TAI offset that an entry sets, or None."""
    name, _, value = entry
    if name == "leap" and word == "tai":
        return value[1]
    return value if name == word else None


def moved_by(entry):
    """Returns the amount by which an entry moves REALTIME, in ns: 0 for an entry that sets it."""
    name, _, value = entry
    if name == "leap":
        return value[0] * NANOS
    return value if name in ("step", "resume") else 0


def limit(clock):
    return MONOTONIC_LIMIT if clock.startswith("monotonic") and clock != "monotonic_raw" else VALUE_LIMIT


def is_settable(sec, nsec):
    return 0 <= sec < SETTABLE_LIMIT and 0 <= nsec < NANOS


def is_bad_setting(word, fields):
    """Returns whether a command's operand is out of range."""
    if word == "set":
        return not is_settable(*fields)
    if word == "step":
        return fields[1] >= NANOS
    if word == "tai":
        return not 0 <= fields[0] <= TAI_LIMIT
    if word == "leap":
        return fields[0] not in (-1, 1) or not 0 <= fields[1] <= TAI_LIMIT
    if word == "tick":
        return not 9_000 <= fields[0] <= 11_000
    if word == "resume":
        return not (0 <= fields[0] < 9_223_372_036 and fields[1] < NANOS)
    return False


def first_refusal(journal, word, reading, fields, is_bounded):
    counter, last = journal.counter, journal.reading(len(journal.entries))
    asleep = journal.is_asleep_at(len(journal.entries))
    if not is_bounded and len(journal.entries) >= JOURNAL_LIMIT:
        return "full"
    if asleep and word != "resume":
        return "asleep"
    if not asleep and word == "resume":
        return "awake"
    if reading >= 2**counter.bits or is_bad_setting(word, fields):
        return "invalid"
    if word != "resume" and counter.is_behind(last, reading):
        return "behind"
    entry = (word, reading, value_of(word, fields))
    after = journal.followed_by(entry)
    tested = ["monotonic", "boottime"] + (["realtime", "tai"] if word not in ("set", "step", "leap") else [])
    if any(after.value(clock, reading) >= limit(clock) for clock in tested):
        return "range"
    monotonic = journal.monotonic(reading)
    if word == "set" and value_of(word, fields) < monotonic:
        return "invalid"
    if word in ("step", "leap"):
        result = journal.value("realtime", reading) + moved_by(entry)
        if result < monotonic or not is_settable(*divmod(result, NANOS)):
            return "invalid"
    return None


def change_refusal(journal, reading, counter, first):
    """Returns why a change of counter is refused. No model's journal counts 2^63 - 1 commands."""
    if first >= 2**counter.bits:
        return "invalid"
    if journal.is_asleep_at(len(journal.entries)):
        refusal = "invalid" if reading >= 2**journal.counter.bits else None
    else:
        refusal = first_refusal(journal, "update", reading, [], True)
    opening = journal.changed(reading, counter, first).opening
    slowest = counter.multiplier(LEAST_FREQUENCY, LEAST_TICK)
    if refusal is None and opening.raw_units * slowest > opening.units * counter.mult:
        return "range"
    return refusal


def value_of(word, fields):
    """Returns the operand that an entry keeps: a time in nanoseconds, the number, or a leap second's numbers."""
    if word == "leap":
        return tuple(fields)
    if word in ("set", "step", "resume"):
        return fields[0] * NANOS + fields[1]
    return fields[0] if fields else None


# the fields of the records of a script, which has none for a leap second
U8, U32, U64, I64 = range(2**8), range(2**32), range(2**64), range(-2**63, 2**63)
FIELDS = {
    "open": [U32, U32, U32, U64, I64, U32, U32], "openhz": [U32, U32, U32, U64, I64, U32, U32],
    "openwords": [U32, U32, U32] + 10 * [U64] + [I64, I64]
                 + [U32, U32, U32, U8, U64, I64, U32, U32, U32, U32, I64, U64, I64, I64, U64, U64, U64, U64],
    "update": [U64], "suspend": [U64], "freq": [U64, I64], "tick": [U64, I64], "tai": [U64, I64],
    "set": [U64, I64, U32], "step": [U64, I64, U32], "resume": [U64, I64, U32], "get": [U64, None, U64],
    "counter": [U64, U32, U32, U32, U64],
    "adjtimex": [U64, U32, I64, I64, I64, I64, U32, I64, I64, I64, I64],
}

# the numbers of fields at the end that a record may leave out
OPTIONAL = {"get": 1, "open": 1, "openhz": 1, "openwords": 18}


def number(text, within):
    digits = text[1:] if within is I64 and text.startswith("-") else text
    if not (digits.isascii() and digits.isdigit()) or int(text) not in within:
        raise ValueError
    return int(text)


def read_record(row, record):
    word, *fields = record
    opens = word in ("open", "openhz", "openwords")
    if word not in FIELDS or opens != (row == 1):
        raise Fault(f"record {row}: " + ("not a valid opening" if row == 1 else "unknown word"))
    if len(FIELDS[word]) - len(fields) not in (0, OPTIONAL.get(word, 0)):
        raise Fault(f"record {row}: wrong number of fields")
    read = []
    for text, within in zip(fields, FIELDS[word]):
        if within is None:
            if text not in CLOCKS:
                raise Fault(f"record {row}: unknown word")
            read.append(text)
            continue
        try:
            read.append(number(text, within))
        except ValueError:
            raise Fault(f"record {row}: not a number in range") from None
    if word == "counter" and Counter(*read[1:4]).fault():
        raise Fault(f"record {row}: {Counter(*read[1:4]).fault()}")
    return word, read


def opened(word, fields):
    """Returns the journal at the opening, without entries."""
    numbers, rest = fields[:3], fields[3:]
    counter = from_hz(*numbers) if word == "openhz" else Counter(*numbers)
    if counter is None or counter.fault():
        raise Fault("record 1: not a valid opening")
    opening = running(counter, *rest) if word == "openwords" else started(counter, *rest)
    if opening is None:
        raise Fault("record 1: not a valid opening")
    return Journal(opening)


def started(counter, reading, sec, nsec, hz=None):
    """Returns the clocks that are opened at a reading, or None if they can't be. With `hz`, a discipline steers them."""
    if reading >= 2**counter.bits or not is_settable(sec, nsec) or hz is not None and not 1 <= hz <= 1024:
        return None
    return Opening(counter, reading, sec * NANOS + nsec, hz=hz)


def running(counter, *numbers):
    """Returns the clocks of ten words, a frequency and a tick, or None if no running clocks are in this state.

    With the numbers of a discipline, it steers them.
    """
    front, last, mult, frac, sec, real_offset, boot_offset, tai, raw_frac, raw_sec, frequency, tick, *more = numbers
    second = NANOS << counter.shift
    opening = Opening(counter, last, real_offset, boot_offset, tai // 2, sec * second + frac,
                      raw_sec * second + raw_frac, frequency, tick, tai % 2 == 1, front, *steering(more))
    slowest = counter.multiplier(LEAST_FREQUENCY, LEAST_TICK)
    is_running = (
        front <= FRONT_LIMIT and last < 2**counter.bits and frac < second and raw_frac < second
        and opening.tai <= TAI_LIMIT and not is_bad_setting("tick", [tick])
        and mult == counter.multiplier(frequency, tick) and raw_sec < RAW_END
        and opening.raw_units * slowest <= opening.units * counter.mult)
    tested = ["monotonic", "boottime", "realtime", "tai"]
    if not is_running or any(Journal(opening).value(clock, last) >= limit(clock) for clock in tested):
        return None
    return opening if are_numbers(more) else None


def steering(numbers):
    """Returns the HZ and the numbers of a discipline, or None twice if there are none."""
    return (numbers[0], tuple(numbers)) if numbers else (None, None)


def are_numbers(numbers):
    """Returns whether there are no numbers of a discipline, or each of them is in its range."""
    if not numbers:
        return True
    from steered_clock import are_in_range
    return are_in_range(*numbers)


def numbers_of(journal):
    """Returns the numbers of the clocks that a journal leaves, as `openwords` has them after the counter."""
    place, second = len(journal.entries), NANOS << journal.counter.shift
    reading = journal.reading(place)
    sec, frac = divmod(journal.units_at(reading), second)
    raw_sec, raw_frac = divmod(journal.raw_units_at(reading), second)
    tai = journal.in_force("tai", place, journal.opening.tai)
    return [journal.accepted_count(), reading, journal.multiplier(place), frac, sec, journal.real_offset(),
            journal.boot_offset(), 2 * tai + journal.is_asleep_at(place), raw_frac, raw_sec,
            journal.in_force("freq", place, journal.opening.frequency),
            journal.in_force("tick", place, journal.opening.tick)]


def time_text(nanos):
    return f"{nanos // NANOS}.{nanos % NANOS:09}"


def utc_text(nanos):
    day = datetime.datetime(1970, 1, 1) + datetime.timedelta(seconds=nanos // NANOS)
    return f"{day:%Y-%m-%dT%H:%M:%S}.{nanos % NANOS:09}Z"


def read_refusal(journal, reading, clock):
    if reading >= 2**journal.counter.bits:
        return "invalid"
    return "range" if journal.value(clock, reading) >= limit(clock) else None


def look(journal, reading, clock):
    """Returns the line of a read."""
    refusal = read_refusal(journal, reading, clock)
    if refusal:
        return f"no,{refusal}"
    value = journal.value(clock, reading)
    line = f"at,{clock},{time_text(value)}"
    return f"{line},{utc_text(value)}" if clock.startswith("realtime") else line


def differences(row, journal, reading, clock, expected=None):
    """Returns the lines after a read: one, if it expects a value that it does not give."""
    if expected is None:
        return []
    gives = not read_refusal(journal, reading, clock) and journal.value(clock, reading) == expected
    return [] if gives else [f"differs,{row},{expected}"]


def records_of(text):
    """Returns the records of a file's bytes, as the csv module reads them."""
    if len(text) > 2**24:
        raise Fault("larger than 16777216 bytes")
    return [r for r in csv.reader(io.StringIO(text.decode("utf-8-sig"), newline="")) if r]


def parsed(text):
    """Returns a script's journal at the opening, and the rows after the opening."""
    records = records_of(text)
    if not records:
        raise Fault("no record")
    journal = opened(*read_record(1, records[0]))
    return journal, [read_record(row, record) for row, record in enumerate(records[1:], 2)]


def done(journal, word, reading, fields, is_bounded):
    """Returns the journal after a command or a change of counter, and its line. Clocks without a
    discipline refuse requests."""
    if word == "adjtimex":
        return journal, "no,invalid"
    if word == "counter":
        return changed_by(journal, reading, Counter(*fields[:3]), fields[3])
    refusal = first_refusal(journal, word, reading, fields, is_bounded)
    if refusal:
        return journal, f"no,{refusal}"
    after = journal.followed_by((word, reading, value_of(word, fields)))
    return after, ok_line(after, reading)


def changed_by(journal, reading, counter, first):
    refusal = change_refusal(journal, reading, counter, first)
    if refusal:
        return journal, f"no,{refusal}"
    after = journal.changed(reading, counter, first)
    return after, ok_line(after, first)


def ok_line(journal, reading):
    return f"ok,{journal.accepted_count()},{time_text(journal.monotonic(reading))}"


@dataclass
class Session:
    """The clocks of a script, as its records change them."""
    journal: Journal
    is_bounded: bool

    def look(self, reading):
        """Does what a read does before it reads: nothing."""

    def line(self, word, reading, fields):
        """Carries out a record that is no read, and returns its line."""
        self.journal, line = done(self.journal, word, reading, fields, self.is_bounded)
        return line


def session_of(journal, is_bounded=False):
    """Returns the session of a journal at its opening."""
    if journal.opening.hz is None:
        return Session(journal, is_bounded)
    from steered_session import SteeredSession
    return SteeredSession(journal)


def report(text, is_bounded=False):
    """Returns the lines of a script's report. If `is_bounded`, the journal is never full."""
    journal, rows = parsed(text)
    counter, session = journal.counter, session_of(journal, is_bounded)
    lines = [f"open,{counter.bits},{counter.mult},{counter.shift}"]
    for row, (word, (reading, *fields)) in enumerate(rows, 2):
        if word == "get":
            session.look(reading)
            lines.append(look(session.journal, reading, fields[0]))
            lines += differences(row, session.journal, reading, *fields)
        else:
            lines.append(session.line(word, reading, fields))
    return lines


def journal_after(journal, rows):
    """Returns the journal after the rows of a script. Reads let the seconds of steered clocks begin."""
    session = session_of(journal)
    for word, (reading, *fields) in rows:
        if word == "get":
            session.look(reading)
        else:
            session.line(word, reading, fields)
    return session.journal


def has_difference(lines):
    return any(line.startswith("differs,") for line in lines)


def replay(text):
    """Returns the exit status for a script, and the lines of its report."""
    lines = named("script", report, text)
    return 3 if has_difference(lines) else 0, lines


def items_of(text):
    """Returns the fronts and the stamps of a stamp file, in pairs."""
    items = []
    for row, record in enumerate(records_of(text), 1):
        if len(record) != 2:
            raise Fault(f"record {row}: wrong number of fields")
        try:
            items.append(tuple(number(field, U64) for field in record))
        except ValueError:
            raise Fault(f"record {row}: not a number in range") from None
    return items


def converted(journal, clock, index, front, stamp):
    """Returns the value of an item in ns, by the first `front` accepted commands."""
    if front > journal.accepted_count():
        raise Fault(f"item {index}: unknown front")
    if front < journal.opening.count:
        raise Fault(f"item {index}: folded front")
    if stamp >= 2**journal.counter.bits:
        raise Fault(f"item {index}: stamp above the mask")
    value = journal.prefix(front - journal.opening.count).value(clock, stamp)
    if value >= limit(clock):
        raise Fault(f"item {index}: value out of range")
    return value


def trace(clock, script, stamps):
    """Returns the lines of a trace: the value of each item in nanoseconds."""
    journal, rows = named("script", parsed, script)
    items = named("stamps", items_of, stamps)
    journal = journal_after(journal, rows)
    return [str(converted(journal, clock, index, *item)) for index, item in enumerate(items)]


def many(scripts):
    """Returns the exit status for these scripts, and the lines of their reports."""
    status, lines = 0, []
    for index, script in enumerate(scripts):
        lines.append(f"file,{index}")
        try:
            lines += report(script)
        except Fault as fault:
            status = 1
            lines.append(f"fault,{fault}")
    if status == 0 and has_difference(lines):
        status = 3
    return status, lines


def opens_running(script):
    """Returns whether a script begins from running clocks."""
    return records_of(script)[0][0] == "openwords"


def race(step, script):
    """Returns the lines of a race of one actor.

    The counter is read at the opening, and then once for each command.
    """
    journal, rows = named("file 0", parsed, script)
    if journal.opening.hz is not None:
        raise Fault("file 0: the clocks of a race cannot be steered")
    if opens_running(script):
        raise Fault("file 0: a race cannot begin from running clocks")
    if any(word == "counter" for word, _ in rows):
        raise Fault("file 0: the counter of a race cannot change")
    if any(word == "adjtimex" for word, _ in rows):
        raise Fault("file 0: the clocks of a race cannot be steered")
    start, reads, answers = journal.opening.reading, 0, []
    for word, (_, *fields) in rows:
        if word != "get":
            reads += 1
            reading = (start + reads * step) % 2**64 % 2**journal.counter.bits
            journal, line = done(journal, word, reading, fields, False)
            answers.append(line)
    accepted = sum(line.startswith("ok") for line in answers)
    return [f"entries,{journal.accepted_count()}", f"actor,0,{accepted},{len(answers) - accepted}"]


def bytes_of(name):
    with open(name, "rb") as file:
        return file.read()


def answer(words):
    """Returns the exit status and the lines for these command-line words."""
    if not words:
        return replay(sys.stdin.buffer.read())
    task, first, *names = words
    files = [bytes_of(name) for name in names]
    if task == "trace":
        return 0, trace(first, *files)
    if task == "many":
        return many(files)
    return 0, race(int(first), *files)


def main():
    try:
        status, lines = answer(sys.argv[1:])
    except Fault as fault:
        print(f"tkcore: {fault}", file=sys.stderr)
        sys.exit(1)
    for line in lines:
        print(line)
    sys.exit(status)


if __name__ == "__main__":
    main()
