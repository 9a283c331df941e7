"""The records of a script with the lines of its report, and reads that pictures need."""
import csv
import pathlib
import shutil
import subprocess
from collections import namedtuple

ACCEPTED = {"ok", "adj"}
POINTS = 400  # reads of a steered clock over the whole script
# A record, its line in the report, the cycles counted up to it, their time in s at the rates of the
# counters, and the number of commands that were accepted up to it.
Row = namedtuple("Row", "word reading fields answer cycles seconds commands")


class Fault(Exception):
    """Why there is no picture."""


def read_script(path):
    """Returns the records of a script."""
    try:
        with open(path, newline="", encoding="utf-8") as file:
            return [record for record in csv.reader(file) if record]
    except (OSError, UnicodeDecodeError, csv.Error) as error:
        raise Fault(f"cannot read {path}: {error}") from None


def program(folder):
    """Returns the path of tkcore: in a tool's folder, in the clone's dist/, or in PATH."""
    for path in folder / "tkcore", folder.parent / "dist" / "bin" / "tkcore":
        if path.is_file():
            return path
    if found := shutil.which("tkcore"):
        return pathlib.Path(found)
    raise Fault("there is no tkcore, neither in the folder of this tool nor in PATH")


def lines_of(text):
    """Returns the fields of each line of a report but `differs`."""
    return [line.split(",") for line in text.splitlines() if not line.startswith("differs,")]


def report(tkcore, records):
    """Returns the lines of the report that tkcore makes."""
    text = "".join(",".join(record) + "\n" for record in records)
    ran = subprocess.run([tkcore], input=text, capture_output=True, text=True, check=False)
    if ran.returncode not in (0, 3):
        raise Fault(ran.stderr.strip() or f"tkcore ended with status {ran.returncode}")
    return lines_of(ran.stdout)


def read_report(path):
    try:
        return lines_of(pathlib.Path(path).read_text(encoding="utf-8"))
    except (OSError, UnicodeDecodeError) as error:
        raise Fault(f"cannot read {path}: {error}") from None


class Opening:
    """What a script's first record states."""

    def __init__(self, record, line):
        self.bits, self.mult, self.shift = map(int, line[1:4])
        if record[0] == "openwords":
            words = list(map(int, record[4:14]))
            self.commands, self.reading = words[0], words[1]
            self.real_sec = words[4] + (words[3] / 2**self.shift + words[5]) / 1e9
            self.is_steered = len(record) > 16
        else:
            self.commands, self.reading = 0, int(record[4])
            self.real_sec = int(record[5]) + int(record[6]) / 1e9
            self.is_steered = len(record) > 7


class Counting:
    """The counter from record to record."""

    def __init__(self, opening):
        self.bits, self.cycle_sec = opening.bits, opening.mult / 2**opening.shift / 1e9
        self.last, self.cycles, self.seconds = opening.reading, 0, 0.0

    def gap(self, reading):
        """Returns the cycles to a reading, below 0 if it is behind."""
        gap = (reading - self.last) % 2**self.bits
        return gap if gap < 2 ** (self.bits - 1) else gap - 2**self.bits

    def step(self, word, reading, answer, fields):
        """Counts up to a record."""
        if reading >= 2**self.bits:
            return
        gap = 0 if word == "resume" else self.gap(reading)
        self.cycles, self.seconds, self.last = (
            self.cycles + gap, self.seconds + gap * self.cycle_sec, reading)
        if word == "counter" and answer[0] in ACCEPTED:
            self.bits, mult, shift, self.last = map(int, fields[:4])
            self.cycle_sec = mult / 2**shift / 1e9


def rows(records, lines):
    """Returns the opening, and a row for each later record."""
    if len(records) != len(lines):
        raise Fault(f"the script has {len(records)} records, and its report {len(lines)} lines")
    opening = Opening(records[0], lines[0])
    counting, commands, found = Counting(opening), opening.commands, []
    for (word, reading, *fields), answer in zip(records[1:], lines[1:]):
        counting.step(word, int(reading), answer, fields)
        if answer[0] in ACCEPTED:
            commands = int(answer[1] if answer[0] == "ok" else answer[-1])
        found.append(Row(word, int(reading), fields, answer, counting.cycles, counting.seconds,
                         commands))
    return opening, found


def gets(clocks, reading):
    return [["get", str(reading), clock] for clock in clocks]


def with_reads(records, lines, clocks):
    """Returns the records with a read of each clock before and after every record."""
    opening = Opening(records[0], lines[0])
    _, found = rows(records, lines)
    spread = max(1, (found[-1].cycles if found else 0) // POINTS)
    counting, made = Counting(opening), [records[0], *gets(clocks, opening.reading)]
    for record, row in zip(records[1:], found):
        is_ahead = row.reading < 2**counting.bits and counting.gap(row.reading) >= 0
        start = counting.last
        if is_ahead and row.word != "resume":
            if opening.is_steered:
                for cycles in range(spread, counting.gap(row.reading), spread):
                    made += gets(clocks, (start + cycles) % 2**counting.bits)
            start = row.reading
        counting.step(row.word, row.reading, row.answer, row.fields)
        is_ahead = is_ahead or row.answer[0] in ACCEPTED
        made += [*(gets(clocks, start) if is_ahead else []), record,
                 *(gets(clocks, counting.last) if is_ahead else [])]
    return made
