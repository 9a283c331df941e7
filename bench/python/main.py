#!/usr/bin/env python3
# SPDX-License-Identifier: MIT OR Apache-2.0
"""Times conversions by the Python package beside the same calls with the addresses of the lists.

    main.py names
    main.py check
    main.py time package|library JOB..

`names` prints the jobs; those of numpy are there if it is installed. `check` makes the conversions
of short lists in both ways, and ends with status 1 if the times differ. `time` prints a line for
each job: its name, the least processor time, its unit, and a digest of the times. The package is
that of PYTHONPATH.
"""
import hashlib
import sys
import time
from array import array
from ctypes import byref, c_size_t

import tkcore
from tkcore._library import CALLS

try:
    import numpy
except ImportError:
    numpy = None

COUNT, SHORT_COUNT, TURNS = 10_000_000, 1_000, 3


class Lists:
    """The stamps of a job, and room for their times."""

    def __init__(self, stamps, out, address):
        self.stamps, self.out, self.address = stamps, out, address
        counter = tkcore.Counter(64, 4_194_304, 0)
        self.snapshot = tkcore.Clock(counter, 0, 1_700_000_000 * tkcore.NANOS).snapshot()

    def package(self, out):
        """Converts the stamps by the package, into a new list if `out` is None."""
        return self.snapshot.convert(self.stamps, 0, out)

    def library(self, out):
        """Converts the stamps as a program in C does."""
        out = numpy.empty(len(self.stamps), numpy.uint64) if out is None else out
        done = c_size_t()
        code = CALLS.tkc_snapshot_convert(self.address(out), len(out), byref(done),
                                          byref(self.snapshot._value), 0,
                                          self.address(self.stamps), len(self.stamps))
        if (code, done.value) != (0, len(self.stamps)):
            sys.exit(f"main.py: the library converted {done.value} stamps, with code {code}")
        return out


def of_array(count):
    return Lists(array("Q", range(count)), array("Q", range(count)), lambda it: it.buffer_info()[0])


def of_numpy(count):
    return Lists(numpy.arange(count, dtype=numpy.uint64), numpy.ones(count, numpy.uint64),
                 lambda it: it.ctypes.data)


# the lists of each job, and whether the times go into a new one
JOBS = {
    "python_convert": (of_array, False),
    "python_convert_numpy": (of_numpy, False),
    "python_convert_numpy_new": (of_numpy, True),
}
WAYS = {"package": Lists.package, "library": Lists.library}


def names():
    return [name for name in JOBS if numpy or "numpy" not in name]


def turns(name, way, count):
    """Returns the least processor time of some turns in ns, and a digest of the times."""
    make, is_new = JOBS[name]
    lists, least = make(count), float("inf")
    for _ in range(TURNS):
        started = time.thread_time_ns()
        times = WAYS[way](lists, None if is_new else lists.out)
        least = min(least, time.thread_time_ns() - started)
    return least, hashlib.sha256(memoryview(times).cast("B")).hexdigest()[:16]


def check():
    for name in names():
        if len({turns(name, way, SHORT_COUNT)[1] for way in WAYS}) != 1:
            sys.exit(f"main.py: {name}: the package and the library gave other times")


def main():
    action, *words = sys.argv[1:] or [""]
    if action == "names" and not words:
        print(*names(), sep="\n")
    elif action == "check" and not words:
        check()
    elif action == "time" and words and words[0] in WAYS:
        for name in words[1:]:
            least, digest = turns(name, words[0], COUNT)
            print(name, f"{least / COUNT:.4f}", "ns/stamp", digest, sep="\t")
    else:
        sys.exit(__doc__)


if __name__ == "__main__":
    main()
