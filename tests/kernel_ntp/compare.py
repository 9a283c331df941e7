#!/usr/bin/env python3
"""Gives random requests to the kernel's own do_adjtimex and to the library's, and stops at the
first reply that differs.

    tests/kernel_ntp/compare.py [--seconds N] [--seed N] LIBRARY
    tests/kernel_ntp/compare.py [--seconds N] [--seed N] --model

LIBRARY is libtkcore.so; --model compares the definitions of tests/model instead. The timelines are
those of timeline.py.
"""
import argparse
import random
import sys
import tempfile
import time
from pathlib import Path

from kernel import compiled, unpack
from library import Library, Model
from timeline import Differs, Known, Timeline

TICKS = 100, 250, 300, 1000             # the values of HZ that a kernel can be configured with


class Counts:
    """The timelines, replies and ends so far, and the most that times were apart."""

    def __init__(self):
        self.timelines, self.replies, self.worst, self.ends = 0, 0, 0, {}

    def run(self, seed, hz, path, clocks):
        """Runs a timeline, and counts its replies and its end."""
        timeline = Timeline(random.Random(seed), hz, path, clocks)
        try:
            timeline.run()
        except Known as known:
            self.ends[str(known)] = self.ends.get(str(known), 0) + 1
        except Differs as differs:
            sys.exit(f"compare.py: seed {seed}, HZ {hz}, reading {timeline.reading}: {differs}")
        finally:
            timeline.kernel.close()
        self.timelines += 1
        self.replies += timeline.replies
        self.worst = max(self.worst, timeline.worst)

    def print(self, seed):
        print(f"kernel_ntp: {self.replies} replies of {self.timelines} timelines of seed {seed} "
              "are those of do_adjtimex")
        print("kernel_ntp: beyond the phase of two ticks, times are apart by at most "
              f"{self.worst:.2f} units of the multiplier")
        for end, number in sorted(self.ends.items()):
            print(f"kernel_ntp: {number} timelines ended early: {end}")


def arguments():
    parser = argparse.ArgumentParser(description="Compares the library with do_adjtimex.")
    parser.add_argument("library", nargs="?")
    parser.add_argument("--model", action="store_true", help="compares the definitions instead")
    parser.add_argument("--seconds", type=float, default=20)
    parser.add_argument("--seed", type=int, default=random.randrange(2**32))
    parser.add_argument("--sources", type=Path, help="the kernel's sources, if they are unpacked")
    given = parser.parse_args()
    if given.model == bool(given.library):
        parser.error("give the library, or --model")
    return given


def compare(given, folder):
    """Runs timelines for this many seconds."""
    if not given.sources:
        unpack(folder)
    paths = [(hz, compiled(given.sources or folder, hz)) for hz in TICKS]
    if not given.model:
        Library.load(given.library)
    counts, end = Counts(), time.monotonic() + given.seconds
    while time.monotonic() < end:
        hz, path = paths[counts.timelines % len(paths)]
        counts.run(given.seed + counts.timelines, hz, path, Model if given.model else Library)
    counts.print(given.seed)


def main():
    given = arguments()
    with tempfile.TemporaryDirectory() as folder:
        compare(given, Path(folder))


if __name__ == "__main__":
    main()
