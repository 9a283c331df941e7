#!/usr/bin/env python3
"""Compares the reports that a session makes, one record at a time, with the program's, for random scripts without
quotes, and stops at the first that differs.

    tests/model/session.py PROGRAM SESSION [SCRIPTS [SEED]]

SESSION is the program of `crates/tk_session_reports` or of `tests/c/session_reports.c`. With - as PROGRAM, it compares
with the definitions in Python. The reports of the examples are compared first. If a script has a fault, the session
must report the same fault, after the lines of the records before it.
"""
import pathlib
import random
import subprocess
import sys

import model
from compare import records, steered_records

END = b"="
EXAMPLES = pathlib.Path(__file__).resolve().parents[2] / "crates/tk_examples/data"


def is_plain(text):
    """Whether a session takes the records of a script."""
    return not any(byte in text for byte in (b'"', b"\r", b"=")) and not text.startswith(b"\xef")


def script(rng):
    """A script without quotes, in bytes."""
    lines = steered_records(rng) if rng.random() < 0.5 else records(rng, True)
    ending = "\n" * rng.choice([1, 1, 1, 2])
    text = "".join(",".join(map(str, line)) + ending for line in lines)
    return (text if rng.random() < 0.7 else text.rstrip("\n")).encode()


def ran(program, text):
    """The report of a script, and its fault, without the words before it."""
    if program == "-":
        try:
            return "".join(line + "\n" for line in model.report(text)).encode(), b""
        except model.Fault as fault:
            return b"", str(fault).encode()
    done = subprocess.run([program], input=text, capture_output=True, check=False)
    return done.stdout, done.stderr.strip().removeprefix(b"tkcore: script: ")


def wanted(program, text):
    """What a session writes for a script: the lines of all records, or of those before the fault, and the fault."""
    report, fault = ran(program, text)
    if not fault:
        return report
    if not fault.startswith(b"record "):
        return fault + b"\n"
    place = int(fault.split(b":")[0].removeprefix(b"record "))
    before = [line for line in text.split(b"\n") if line][:place - 1]
    return (ran(program, b"\n".join(before))[0] if before else b"") + fault + b"\n"


def written(session, texts):
    """What a session writes for each of these scripts."""
    given = b"".join(text + b"\n" + END + b"\n" for text in texts)
    done = subprocess.run([session], input=given, capture_output=True, check=False)
    return done.stdout.split(END + b"\n")[:-1]


def compare(program, session, texts):
    """Compares what a session writes for these scripts. Returns the number of faults."""
    answers = written(session, texts)
    if len(answers) != len(texts):
        sys.exit(f"session: {len(answers)} answers to {len(texts)} scripts")
    faults = 0
    for text, answer in zip(texts, answers):
        right = wanted(program, text)
        if answer != right:
            sys.exit(f"session: differs\n{text.decode()}\nwanted:\n{right.decode()}\nwritten:\n{answer.decode()}")
        faults += b"record" in answer or b"no record" in answer
    return faults


def main():
    program, session, *rest = sys.argv[1:]
    count, seed = (int(rest[0]) if rest else 1000), (int(rest[1]) if rest[1:] else 1)
    examples = [path.read_bytes() for path in sorted(EXAMPLES.glob("*.csv"))]
    plain = list(filter(is_plain, examples))
    compare(program, session, plain)
    rng = random.Random(seed)
    texts = list(filter(is_plain, (script(rng) for _ in range(count))))
    faults = compare(program, session, texts)
    print(f"session: {len(plain)} examples and {len(texts)} random scripts have their reports, {faults} a fault")


if __name__ == "__main__":
    main()
