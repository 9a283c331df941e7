# SPDX-License-Identifier: MIT OR Apache-2.0
"""What the tests of the package share: the tables of tests/c, and the clocks that they begin
with."""
import ast
import os
import random
import re
import sys
from pathlib import Path

import tkcore

ROOT = Path(__file__).resolve().parents[3]
sys.path.insert(0, str(ROOT / "tests" / "model"))

INT64_MIN, INT64_MAX, UINT32_MAX = -2**63, 2**63 - 1, 2**32 - 1
NAMES = {"INT64_MIN": INT64_MIN, "INT64_MAX": INT64_MAX, "UINT32_MAX": UINT32_MAX,
         "UINT64_MAX": 2**64 - 1, "false": False, "true": True}
CALLS = int(os.environ.get("TKCORE_CALLS", "20000"))  # how many random calls a test makes
BAD_CALLS = max(CALLS, 100_000)  # how many calls with any arguments


def seeded():
    """Returns random numbers of the seed TKCORE_SEED, 1 if it isn't set."""
    return random.Random(int(os.environ.get("TKCORE_SEED", "1")))


def rows(file, table):
    """Returns the rows of a table of tests/c, in which names are strings without TKC_."""
    text = re.sub(r"/\*.*?\*/", "", (ROOT / "tests" / "c" / file).read_text(), flags=re.S)
    body = re.search(rf"\b{table}(?:\[\])? = (\{{.*?\n\t*\}});", text, re.S).group(1)
    body = re.sub(r"\.\w+ = ", "", body).replace("{", "(").replace("}", ",)")
    body = re.sub(r",(\s*,)+", ",", re.sub(r"\b(\d+)U\b", r"\1", body))
    body = re.sub(r"\b(?:TKC_)?([A-Za-z_]\w*)", lambda it: repr(NAMES.get(it[1], it[1])), body)
    body = re.sub(r"(\d+) \* (\d+)", lambda it: str(int(it[1]) * int(it[2])), body)
    return ast.literal_eval(body)


def exception(code):
    """Returns the exception of a code's name, such as BAD_BITS, or None for OK."""
    return None if code == "OK" else getattr(tkcore, code.title().replace("_", ""))


def clock_id(word):
    """Returns the number of a clock in a table: a number, or a name."""
    return word if isinstance(word, int) else tkcore.ClockId[word.replace("CLOCK_", "")]


def command(word):
    """Returns the number of a command in a table."""
    return word if isinstance(word, int) else tkcore.Command[word.replace("CMD_", "")]


def nanos(sec, nsec):
    return sec * tkcore.NANOS + nsec


def nanosecond_counter():
    return tkcore.Counter(32, 16_777_216, 24)


def opened():
    return tkcore.Clock(nanosecond_counter(), 0, 1_700_000_000 * tkcore.NANOS)


def opened_wide():
    return tkcore.Clock(tkcore.Counter(64, 4_194_304, 0), 0, 1_700_000_000 * tkcore.NANOS)


def commanded():
    """Returns the clocks that `commanded` of tests/c/worked_rows.c makes."""
    clock = opened()
    for reading, word, number, nsec, _ in rows("worked_rows.c", "commands"):
        clock.apply(reading, command(word), number, nsec)
    return clock


def raises(test, code, call):
    """Makes a call, which must raise the exception of a code. Returns its result or exception."""
    wanted = exception(code)
    if wanted is None:
        return call()
    with test.assertRaises(wanted) as raised:
        call()
    test.assertIs(type(raised.exception), wanted)
    return raised.exception
