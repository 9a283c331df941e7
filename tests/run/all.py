"""Runs the tests of tkrun, and prints which were left out and why.

    all.py [--all]
    all.py [--part NUMBER/COUNT] MODULE..

Without a module, it runs the quick ones, and with --all those of servers, 2,000 kills, 20 runs of a
seed and 400 threads too. Each module runs in a process of its own, or in several if it takes long: then each runs
a part of its tests. One more process runs at once than there are processors, and next to them as
many of the modules whose tests mostly wait for the host's time. What they print is printed in the
order of their names. No test is run twice: each holds on a busy machine too.
"""
import argparse
import os
import pathlib
import subprocess
import sys
import unittest
from concurrent import futures

FOLDER = pathlib.Path(__file__).parent
MORE = 1  # processes that run at once, beyond the number of processors
# the modules whose tests mostly wait, and the number of processes that each runs in
WAITING = {"test_chrony": 1, "test_kernel": 8, "test_waits": 8}
# other modules that take long, which come first
FIRST = {"test_masks": 5, "test_nodes": 2, "test_python": 1, "test_check": 1, "test_calls": 1,
         "test_net_streams": 2, "test_net_connections": 1, "test_net_datagrams": 1,
         "test_net_six": 4}
LONG = ["test_many_seeds", "test_many_kills", "test_many_threads", "test_postgresql", "test_redis",
        "test_nginx"]


def tests_in(suite):
    """Yields the tests of a suite and of those in it, in their order."""
    for it in suite:
        yield from tests_in(it) if isinstance(it, unittest.TestSuite) else [it]


def run(names, number, count):
    """Runs every COUNTth test, from the NUMBERth, of modules or of named tests. Returns whether all
    have succeeded."""
    tests = list(tests_in(unittest.defaultTestLoader.loadTestsFromNames(names)))
    result = unittest.TextTestRunner().run(unittest.TestSuite(tests[number - 1::count]))
    for test, reason in result.skipped:
        print(f"check_run: left out {test.id()}: {reason}")
    sys.stdout.flush()
    return result.wasSuccessful()


def run_apart(module, part):
    """Runs a part of a module in a process of its own. Returns its status and what it prints."""
    ran = subprocess.run([sys.executable, "-B", __file__, "--part", part, module],
                         stdout=subprocess.PIPE, stderr=subprocess.STDOUT, text=True, check=False,
                         stdin=subprocess.DEVNULL)
    return ran.returncode, f"{module} {part}:\n{ran.stdout}"


def parts_of(counts):
    """Returns the parts of modules: first one of each module, so that only one of them waits for a
    file that they share."""
    return [(name, f"{it}/{counts[name]}") for it in range(1, max(counts.values(), default=0) + 1)
            for name in counts if it <= counts[name]]


def run_all(long):
    """Runs the quick modules, and these. Returns whether all have succeeded."""
    modules = {path.stem for path in FOLDER.glob("test_*.py")}
    rest = sorted(modules - {*LONG, *FIRST, *WAITING})
    parts = parts_of({**dict.fromkeys(long, 1), **FIRST}) + parts_of(dict.fromkeys(rest, 1))
    processors = len(os.sched_getaffinity(0))
    is_well = True
    with futures.ThreadPoolExecutor(processors) as waiting, \
            futures.ThreadPoolExecutor(processors + MORE) as others:
        ends = {part: waiting.submit(run_apart, *part) for part in parts_of(WAITING)}
        ends.update((part, others.submit(run_apart, *part)) for part in parts)
        for part in sorted(ends):
            status, said = ends[part].result()
            print(said, end="", flush=True)
            is_well = is_well and not status
    return is_well


def main():
    read = argparse.ArgumentParser(usage=__doc__)
    read.add_argument("--all", action="store_true")
    read.add_argument("--part", default="1/1")
    read.add_argument("names", nargs="*")
    given = read.parse_args()
    if given.names:
        return run(given.names, *map(int, given.part.split("/")))
    return run_all(LONG if given.all else [])


if __name__ == "__main__":
    sys.path.insert(0, str(FOLDER))
    sys.exit(not main())
