#!/usr/bin/env python3
"""Runs random scripts through a program that makes reports over the library for C and through the
definitions in Python, and stops at the first report or fault that differs.

    tests/c/compare_report.py calls|session PROGRAM [SCRIPTS [SEED]]

`calls` is calls_report.c, which takes commands and reads. `session` is examples/c/report.c, which
takes all scripts without quotes.
"""
import random
import subprocess
import sys
from pathlib import Path

sys.path.insert(0, str(Path(__file__).resolve().parents[1] / "model"))

# pylint: disable=wrong-import-position
import compare
import model


def any_script(rng):
    """A script without quotes and byte order marks, with line ends of any kind."""
    ending, quote = rng.choice(["\n", "\n", "\n\n", "\r\n", "\r"]), True
    while quote:
        lines = compare.steered_records(rng) if rng.random() < 0.4 else compare.records(rng, True)
        text = ending.join(",".join(map(str, line)) for line in lines)
        quote = '"' in text
    return (text + rng.choice(["", ending])).encode()


def wanted(text):
    """Returns the status, the report and the fault that the definitions give for a script."""
    try:
        lines = model.report(text)
    except model.Fault as fault:
        return 1, "", f"tkcore: script: {fault}\n"
    return 3 if model.has_difference(lines) else 0, "".join(line + "\n" for line in lines), ""


def written(program, text):
    """Returns the status, the report and the fault that the program gives for a script."""
    ran = subprocess.run([program], input=text, capture_output=True, check=False)
    return ran.returncode, ran.stdout.decode(), ran.stderr.decode()


def main():
    kind, program = sys.argv[1:3]
    count = int(sys.argv[3]) if len(sys.argv) > 3 else 1_000
    seed = int(sys.argv[4]) if len(sys.argv) > 4 else 1
    rng = random.Random(seed)
    for number in range(count):
        text = compare.unquoted_script(rng, True) if kind == "calls" else any_script(rng)
        if written(program, text) != wanted(text):
            print(f"script {number} of seed {seed} differs:\n{text.decode()}")
            print(f"program: {written(program, text)}\nmodel: {wanted(text)}")
            sys.exit(1)
    print(f"{count} scripts of seed {seed}: each report is as the definitions have it")


if __name__ == "__main__":
    main()
