#!/usr/bin/env python3
"""Compares the page's reports with tkcore's: those of the numbered examples, which are stored, and of
random scripts, by the program or by the definitions in Python.

    tests/web/compare.py FOLDER [--program TKCORE] [--scripts N] [--seed SEED] [--node FLAG] [--long]

FOLDER has tkcore.wasm and session.wasm. The page must have a fault for the first record that needs its
quotes. A tenth of the random scripts gets more quotes than the generator of scripts writes. With --long, the journal of steered clocks is filled too, which takes a minute. It stops at the first
report, fault or status that differs, at the first cursor of the page that shows other times than these
reads in a script, and where the page says something else of the reads.
"""
import argparse
import base64
import itertools
import json
import pathlib
import random
import re
import subprocess
import sys

TOP = pathlib.Path(__file__).resolve().parents[2]
sys.path.insert(0, str(TOP / "tests" / "model"))

# pylint: disable=wrong-import-position
import compare
import model
import readers
from cases import EDGES, MARK, faulty, full, with_quotes

DATA = TOP / "crates" / "tk_examples" / "data"
SECONDS = 1800  # the longest that node may take for all scripts, on a busy machine


def answers(given, scripts, whose):
    """Returns the status, the output, the error and what is drawn of each script, or None. A script
    may have the text of its readers. A script without an end is named."""
    words = ["node", *given.node, str(TOP / "tests/web/reports.mjs"), given.folder]
    lines = b"".join(b" ".join(map(base64.b64encode, (script, *whose.get(script, ())[:1]))) + b"\n"
                     for script in scripts)
    try:
        ran = subprocess.run(words, input=lines, capture_output=True, check=False, timeout=SECONDS)
    except subprocess.TimeoutExpired as late:
        script = scripts[(late.stdout or b"").count(b"\n")]
        sys.exit(f"{script[:2000].decode(errors='replace')}\n---\npage: no answer after {SECONDS} s")
    if ran.returncode:
        sys.exit(ran.stderr.decode())
    return [tuple(json.loads(line)) for line in ran.stdout.splitlines()]


def examples(given):
    """Yields each numbered script with its stored report or fault. tkcore makes that of a script for a trace."""
    for path in sorted(DATA.glob("*.csv")):
        report, fault = path.with_suffix(".report"), path.with_suffix(".fault")
        if report.exists():
            text = report.read_text(encoding="utf-8")
            yield path.read_bytes(), (3 if "\ndiffers," in text else 0, text, "")
        elif fault.exists() and not path.with_suffix(".stamps").exists():
            yield path.read_bytes(), (1, "", fault.read_text(encoding="utf-8"))
        else:
            yield path.read_bytes(), wanted_of(given, path.read_bytes())


def wanted_of(given, script):
    if given.program:
        return compare.ran(given.program, [], script)
    return compare.wanted(model.replay, script)


def needs_quotes(record):
    """Whether a record has other quotes than around fields without a comma, a quote and a line end, or would
    be an empty line without them."""
    return record == b'""' or not all(re.fullmatch(rb'"[^"]*"|[^"]*', it) for it in record.split(b","))


def page_of(given, script):
    """Returns the page's answer to a script: tkcore's, unless a record needs its quotes, or the first one has
    a byte of a mark."""
    records = [it for it in re.split(rb"[\r\n]+", script.removeprefix(MARK)) if it]
    plain = list(itertools.takewhile(lambda it: not needs_quotes(it), records))
    if records and records[0].lstrip(b'"')[:1] == MARK[:1]:
        plain = []
    if len(plain) == len(records):
        return wanted_of(given, script)
    before = wanted_of(given, b"\n".join(plain)) if plain else (0, "", "")
    return before if before[0] == 1 else (
        1, "", f"tkcore: script: record {len(plain) + 1}: not a plain line\n")


def first_difference(pairs, found):
    for (script, wanted), (*have, _) in zip(pairs, found):
        if list(wanted) != have:
            return f"{script[:2000].decode(errors='replace')}\n---\npage: {have}\nwanted: {list(wanted)}"
    return None


def value_of(line):
    """Returns the value of a read's line in ns."""
    return int(line.split(",")[2].replace(".", ""))


def cycle_of(cursor):
    """Returns the longest cycle of the script's counters, in ns."""
    records = [line.split(",") for line in cursor["script"].splitlines()]
    numbers = [(record[2], record[3]) for record in records if record[0] in ("open", "openwords")]
    numbers += [(record[3], record[4]) for record in records if record[0] == "counter"]
    return max((int(mult) / 2**int(shift) for mult, shift in numbers), default=0) + (
        10**9 / int(records[0][2]) if records[0][0] == "openhz" else 0)


def wrong_cursor(given, cursor):
    """Returns what is wrong with what the page shows at its cursor, or None."""
    lines = [line for line in wanted_of(given, cursor["script"].encode())[1].splitlines()
             if not line.startswith("differs,")]
    if lines[-len(cursor["lines"]):] != cursor["lines"]:
        return "\n".join([cursor["script"], "--- cursor:", *cursor["lines"], "--- wanted:", *lines])
    raw, boot, mono, real = map(value_of, lines[1:5])
    starts = {"monotonic": mono, "boottime": boot, "realtime": real, "tai": real}
    values = {line.split(",")[1]: value_of(line) for line in cursor["lines"] if line[:2] == "at"}
    place, bound = int(cursor["place"]), cursor["place"] / 2**52    # (numbers of 53 bits)
    ahead = {clock: values[clock] - start - place for clock, start in starts.items() if clock in values}
    shown = {clock: stated for clock, stated in cursor["ahead"] if stated is not None}
    if shown.keys() != ahead.keys() or any(
            abs(stated - ahead[clock]) > bound + abs(stated) / 2**52 for clock, stated in shown.items()):
        return f"{cursor['script']}\n--- ahead: {shown}\n--- wanted: {ahead}"
    if {"monotonic_raw", "boottime", "monotonic"} <= values.keys() and not cursor["isAsleep"]:
        exact = values["monotonic_raw"] + values["boottime"] - values["monotonic"] - (raw + boot - mono)
        if abs(place - exact) > bound or not -bound - 2 <= place - cursor["asked"] <= cycle_of(cursor) + 2 + bound:
            return f"{cursor['script']}\n--- place: {place}\n--- wanted: {exact}, asked: {cursor['asked']}"
    return None


def value_in_ns(line):
    return value_of(line) if line[:3] == "at," else None


def reads_of(given, script):
    """Yields each read of a script: its clock, record, value and place, in ns or None."""
    records, asked = script.decode().split("\n"), []
    for record in records:
        word, *fields = record.split(",")
        if word == "get":
            asked += [f"get,{fields[0]},{clock}" for clock in ("monotonic_raw", "boottime", "monotonic")]
        asked.append(record)
    lines = iter([it for it in wanted_of(given, "\n".join(asked).encode())[1].splitlines()
                  if not it.startswith("differs,")])
    for number, record in enumerate(filter(None, records), 1):
        word, *fields = record.split(",")
        if word != "get":
            next(lines)
            continue
        raw, boot, mono, value = (value_in_ns(next(lines)) for _ in range(4))
        place = None if None in (raw, boot, mono) else raw + boot - mono
        yield fields[1], number, int(fields[2]) if len(fields) > 2 else value, place


def falls_of(reads):
    """Yields where a clock went back, and by what: below its greatest value since the last fall."""
    since = 0
    for i, (number, value, place) in enumerate(reads):
        _, most, there = max(reads[since:i], key=lambda it: it[1], default=(0, value, place))
        if value < most and place >= there:
            yield number, most - value
            since = i


def span_text(span):
    return f"{span // 10**9}.{span % 10**9:09} s"


def said_of(reads):
    """Returns the lines that the page must have for reads."""
    if not reads:
        return []
    clocks = list(dict.fromkeys(clock for clock, *_ in reads))
    counts = [f"{sum(it[0] == clock for it in reads)} of {clock}" for clock in clocks]
    placed = [it for it in reads if it[3] is not None]
    pauses = [(placed[i][3] - max(it[3] for it in placed[:i]), placed[i][1]) for i in range(1, len(placed))]
    lines, (span, number) = [f"reads: {', '.join(counts)}"], max(pauses, key=lambda it: it[0], default=(0, 0))
    if span > 0:
        lines.append(f"longest time without a read: {span_text(span)}, before record {number}")
    found = {clock: list(falls_of([it[1:] for it in placed if it[0] == clock and it[2] is not None]))
             for clock in clocks}
    for clock, falls in sorted(found.items(), key=lambda it: it[1][:1]):
        if falls:
            number, span = max(falls, key=lambda it: it[1])
            many = "once," if len(falls) == 1 else f"{len(falls)} times, at most"
            lines.append(f"{clock} went back {many} by {span_text(span)} at record {number}")
    return lines


def unquoted(script):
    """Returns a script that the page takes without its quotes, which no field needs."""
    return script.replace(b'"', b"")


def is_plain(script):
    """Whether a line is a record, and the script is short."""
    return not set(script) & set(b"\r\xef") and len(script) < 100_000


def wrong_reads(given, script, said, whose):
    """Returns what is wrong with what the page says of a script's reads, or None."""
    reads = list(reads_of(given, unquoted(script)))
    wanted = said_of(reads)
    if whose:
        _, who, fault = whose
        wanted += [f"readers: {fault}"] if fault else readers.said(reads, who, falls_of, span_text)
    if said == wanted:
        return None
    return "\n".join([script.decode(), "--- page:", *said, "--- wanted:", *wanted])


def random_scripts(rng, count):
    """Yields random scripts. Each tenth gets more quotes."""
    for number in range(count):
        script = compare.script(rng)
        yield script if number % 10 else with_quotes(rng, script)


def main():
    read = argparse.ArgumentParser(usage=__doc__)
    read.add_argument("folder")
    read.add_argument("--program")
    read.add_argument("--scripts", type=int, default=2_000)
    read.add_argument("--seed", type=int, default=1)
    read.add_argument("--node", action="append", default=[])
    read.add_argument("--long", action="store_true")
    given = read.parse_args()
    rng = random.Random(given.seed)
    pairs = list(examples(given))
    count = len(pairs)
    for script, fault in faulty():
        if fault:
            pairs.append((script, (1, "", f"tkcore: script: {fault}\n")))
    stated = len(pairs) - count
    journals = list(full())[:2 if given.long else 1]
    pairs += [(script, (0, "".join(f"{line}\n" for line in lines), "")) for script, lines in journals]
    scripts = [*EDGES, *(script for script, fault in faulty() if not fault)]
    scripts += random_scripts(rng, given.scripts)
    scripts += [unquoted(script) for script in scripts if b'"' in script]
    pairs += [(script, page_of(given, script)) for script in scripts]
    whose = {script: readers.made(rng, unquoted(script)) for script, (status, *_) in pairs
             if status != 1 and is_plain(script) and (script in EDGES or rng.random() < 0.8)}
    found = answers(given, [script for script, _ in pairs], whose)
    drawn = [(script, some) for (script, _), (*_, some) in zip(pairs, found) if some]
    cursors = [cursor for _, some in drawn for cursor in some["cursors"]]
    if 2 * len(cursors) < len(drawn):
        sys.exit(f"{len(cursors)} cursors in {len(drawn)} scripts that are drawn: too few show times")
    plain = [(script, some["reads"], whose.get(script)) for script, some in drawn if is_plain(script)]
    if wrong := first_difference(pairs, found) or next(filter(None, [
            *(wrong_cursor(given, cursor) for cursor in cursors),
            *(wrong_reads(given, *it) for it in plain)]), None):
        sys.exit(wrong)
    quoted = sum(b'"' in script and status != 1 for script, (status, *_) in pairs)
    print(f"{count} examples, {stated} faults, {len(journals)} full journal(s) and {len(scripts)} scripts of "
          f"seed {given.seed}: each report, {quoted} of them of a script with quotes, and "
          f"what {len(cursors)} cursors show, is {'the program' if given.program else 'the model'}'s, "
          f"as what the page says of the reads of {len(plain)} scripts, "
          f"{sum(bool(it[2]) for it in plain)} of them with readers")


if __name__ == "__main__":
    main()
