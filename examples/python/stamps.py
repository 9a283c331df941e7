#!/usr/bin/env python3
# SPDX-License-Identifier: MIT OR Apache-2.0
"""Makes the two files of `tkcore trace` from the data of perf, LTTng and other CTF traces.

    stamps.py now >SCRIPT                     the clocks of this machine, for perf record -k
    stamps.py clock [READING] <META >SCRIPT   the clock of a CTF trace's metadata
    stamps.py perf SCRIPT <TEXT >STAMPS       TEXT is of perf script --header --ns -F time
    stamps.py ctf SCRIPT <TEXT >STAMPS        TEXT is of babeltrace2 --clock-cycles

`now` opens the clocks at the present reading of MONOTONIC_RAW, in ns, and steers REALTIME as the
kernel does at present. `clock` opens them at READING, by default 0. `perf` and `ctf` write a line
for each event, in the order of TEXT. Its front is the number of SCRIPT's commands whose reading
isn't after the stamp. So SCRIPT must have no command that tkcore refuses, and no reading that is
below the one before it.

The program ends with status 1 and a line on standard error if it can't read its input, if a stamp
is before SCRIPT's opening, or if perf's header doesn't say that the events were recorded with
-k CLOCK_MONOTONIC_RAW, the clock that `now` opens. docs/TRACERS.md describes all steps.
"""
import argparse
import bisect
import csv
import ctypes
import re
import sys
import time

NANOS = 1_000_000_000
READS = 100  # `now` reads the clocks this many times, and takes the closest readings
NEUTRAL = {"tick": 10_000, "freq": 0, "tai": 0}
LONGS = ("maxerror esterror status constant precision tolerance sec usec tick ppsfreq jitter shift "
         "stabil jitcnt calcnt errcnt stbcnt tai").split()
STAMP = {"perf": re.compile(r"\s*(\d+)\.(\d{9}):\s*"), "ctf": re.compile(r"\[(\d+)\]( .*)?")}
ADVICE = {"perf": "perf script --header --ns -F time", "ctf": "babeltrace2 --clock-cycles"}
RULER = "# ========\n"  # the first and the last line but one of perf's header
CLOCK = re.compile(r"# clockid: (.+) \(\d+\)\n")  # of perf's header, if -k chose a clock


class Fault(Exception):
    """The reason why there is no output."""


class Timex(ctypes.Structure):
    """The kernel's `struct timex` on little-endian machines of 64 bits: 8 bytes a member."""

    _fields_ = [("modes", ctypes.c_uint32), ("offset", ctypes.c_int64), ("freq", ctypes.c_int64),
                *((name, ctypes.c_int64) for name in LONGS), ("reserved", ctypes.c_int64 * 5)]


def opening(hz, reading, realtime):
    """Returns the record that opens the clocks of a counter of 64 bits, with the finest mult."""
    if not 0 <= realtime:
        raise Fault("REALTIME at the opening is before 1970")
    return f"openhz,64,{hz},1,{reading},{realtime // NANOS},{realtime % NANOS}"


def steering():
    """Returns the kernel's tick in us, its frequency in 2^-16 ppm, and TAI minus UTC in s."""
    timex = Timex()
    if ctypes.CDLL(None).adjtimex(ctypes.byref(timex)) < 0:
        raise Fault("adjtimex failed")
    return {"tick": timex.tick, "freq": timex.freq, "tai": ctypes.c_int32(timex.tai).value}


def read_clocks():
    """Returns the width of a pair of MONOTONIC_RAW's readings, their middle, and REALTIME there."""
    before = time.clock_gettime_ns(time.CLOCK_MONOTONIC_RAW)
    realtime = time.clock_gettime_ns(time.CLOCK_REALTIME)
    after = time.clock_gettime_ns(time.CLOCK_MONOTONIC_RAW)
    return after - before, (before + after) // 2, realtime


def now():
    """Returns the script of this machine's clocks."""
    _, reading, realtime = min(read_clocks() for _ in range(READS))
    settings = [f"{word},{reading},{value}" for word, value in steering().items()
                if value != NEUTRAL[word]]
    return [opening(NANOS, reading, realtime), *settings]


def without_comments(text):
    """Returns TSDL without comments and with empty strings."""
    return re.sub(r'("(?:\\.|[^"\\])*")|/\*.*?\*/|//[^\n]*',
                  lambda found: '""' if found[1] else " ", text, flags=re.S)


def clock(metadata, reading):
    """Returns the script of the metadata's clock, which must be the only one."""
    blocks = re.findall(r"\bclock\s*\{(.*?)\}", without_comments(metadata), re.S)
    if len(blocks) != 1:
        raise Fault(f"the metadata has {len(blocks)} clocks instead of one")
    found = dict(re.findall(r"\b(\w+)\s*=\s*([^;]*);", blocks[0]))
    hz, seconds, cycles = (int(found.get(name, default)) for name, default in
                           (("freq", NANOS), ("offset_s", 0), ("offset", 0)))
    if not 1 <= hz < 2**32:
        raise Fault("the frequency isn't from 1 Hz to 4,294,967,295 Hz")
    return [opening(hz, reading, seconds * NANOS + (cycles + reading) * NANOS // hz)]


def readings_of(script):
    """Returns the readings of the script's opening and of each command after it."""
    records = [record for record in csv.reader(script) if record]
    if not records or records[0][0] not in ("open", "openhz") or len(records[0]) != 7:
        raise Fault("the script has no opening")
    texts = [records[0][4], *(record[1] for record in records[1:] if record[0] != "get")]
    readings = [int(text) for text in texts]
    if readings != sorted(readings):
        raise Fault("a reading of the script is below the one before it")
    return readings


def header_of(text):
    """Returns the lines of perf's header, with the empty comment that ends it."""
    if text[:1] != [RULER] or RULER not in text[1:]:
        raise Fault(f"perf's header is missing: run {ADVICE['perf']}")
    return text[:text.index(RULER, 1) + 2]


def check_clock(header):
    """Raises a fault unless the header says that the events have stamps of MONOTONIC_RAW."""
    named = [found[1] for found in map(CLOCK.fullmatch, header) if found]
    if named[-1:] != ["monotonic_raw"]:
        clock = f"the clock {named[-1]}" if named else "perf's default clock"
        raise Fault(f"the events were recorded with {clock} instead of -k CLOCK_MONOTONIC_RAW")


def stamps(kind, readings, text, first):
    """Returns the lines of the stamp file. The text's first event is on line `first`."""
    lines = []
    for number, line in enumerate(text[first - 1:], first):
        found = STAMP[kind].fullmatch(line.rstrip("\n"))
        if not found:
            raise Fault(f"line {number} isn't one of {ADVICE[kind]}")
        stamp = int(found[1] + found[2]) if kind == "perf" else int(found[1])
        front = bisect.bisect_right(readings, stamp) - 1
        if front < 0:
            raise Fault(f"the stamp of line {number} lies before the script's opening")
        lines.append(f"{front},{stamp}")
    return lines


def answer(words):
    """Returns the lines of the output."""
    if words.task == "now":
        return now()
    if words.task == "clock":
        return clock(sys.stdin.read(), words.reading)
    with open(words.script, newline="", encoding="utf-8") as script:
        readings = readings_of(script)
    text = list(sys.stdin)
    header = []
    if words.task == "perf":
        header = header_of(text)
        check_clock(header)
    return stamps(words.task, readings, text, len(header) + 1)


def main():
    parser = argparse.ArgumentParser(description=__doc__.partition("\n")[0])
    tasks = parser.add_subparsers(dest="task", required=True)
    tasks.add_parser("now", help="writes the script of this machine's clocks")
    tasks.add_parser("clock", help="writes the script of a CTF trace's clock").add_argument(
        "reading", nargs="?", type=int, default=0, metavar="READING")
    for kind, advice in ADVICE.items():
        task = tasks.add_parser(kind, help=f"writes the stamps of what {advice} prints")
        task.add_argument("script", metavar="SCRIPT")
    try:
        lines = answer(parser.parse_args())
    except (Fault, OSError, ValueError, IndexError) as fault:
        print(f"stamps.py: {fault}", file=sys.stderr)
        return 1
    print("".join(f"{line}\n" for line in lines), end="")
    return 0


if __name__ == "__main__":
    sys.exit(main())
