#!/usr/bin/env python3
# SPDX-License-Identifier: MIT OR Apache-2.0
"""Measures examples/fleet: makes a fleet, and its table in one process and by 4, 2 and 1 of Dask's
workers. All tables must be the same, in the order of TAI, and a sample of the times those of the
definitions. Before each table, all files are written to the disk, and the stamps are dropped from
memory. Prints the times as one sentence, for docs/PYTHON.md.

    measure_fleet.py [--machines N] [--stamps N] [--minutes N] [--runs N,N..] [FOLDER]

    --machines N    1,000 if it isn't given
    --stamps N      of each machine, 1,000,000 if it isn't given
    --minutes N     how long all may take, 12 if it isn't given. What has no time is left out
    --runs N,N..    the numbers of workers in the order in which they are measured: 0,4,2,1, of
                    which 0 is one process without Dask
    FOLDER          where a new folder is made, and removed at the end: /tmp if it isn't given

A stamp takes 28 bytes of the disk. The program ends with status 1 if less than these and 2 GiB are
free, and then makes nothing, or if a table is wrong. It needs numpy and distributed (Debian's
python3-distributed), and the package tkcore.
"""
import argparse
import os
import re
import shutil
import signal
import subprocess
import sys
import tempfile
import time
from concurrent.futures import ThreadPoolExecutor
from pathlib import Path

from check_fleet import FOLDER, taken

BYTES, SPARE = 28, 2 << 30
COMPARING = 40e-9  # the seconds for a stamp that remain for a comparison after a run
WORDS = {0: "in one process", 1: "with one worker", 2: "with two", 4: "with four"}


def cold(data):
    """Writes all files to the disk, and drops the stamps from memory."""
    os.sync()
    for path in Path(data).iterdir():
        with open(path, "rb") as file:
            os.posix_fadvise(file.fileno(), 0, 0, os.POSIX_FADV_DONTNEED)


def run(seconds, *command):
    """Runs a program of Python. Returns what it prints, or None if it takes longer: then it is
    killed, with all processes that it started."""
    with subprocess.Popen([sys.executable, *map(str, command)], text=True, start_new_session=True,
                          stdout=subprocess.PIPE, stderr=subprocess.PIPE) as program:
        try:
            printed, errors = program.communicate(timeout=max(seconds, 0))
        except BaseException as ended:
            os.killpg(program.pid, signal.SIGKILL)
            if isinstance(ended, subprocess.TimeoutExpired):
                return None
            raise
    assert program.returncode == 0, errors
    return printed


def measure(words, work):
    """Makes the fleet and its tables. Returns the seconds by the number of workers."""
    ends = time.monotonic() + 60 * words.minutes
    data, table, total = Path(work, "data"), Path(work, "table"), words.machines * words.stamps
    started = time.monotonic()
    if run(60 * words.minutes, FOLDER / "make.py", data, words.machines, words.stamps) is None:
        sys.exit("there is no time to make the stamps")
    print(f"made the stamps in {time.monotonic() - started:.0f} s", flush=True)
    wanted, took = None, {}
    for workers in words.runs:
        cold(data)
        printed = run(ends - time.monotonic() - COMPARING * total, FOLDER / "fleet.py",
                      "--workers", workers, data, table)
        if printed is None:
            print(f"left out: {workers} workers, there is no time", flush=True)
            shutil.rmtree(table, ignore_errors=True)
            continue
        print(f"{workers} workers: {printed}", end="", flush=True)
        assert printed.startswith(f"{total} stamps"), printed
        with ThreadPoolExecutor(4) as threads:  # (numpy and hashlib let other threads run)
            found = taken(table, None if took else data, threads.map), printed.splitlines()[1]
        assert wanted in (None, found), f"{workers} workers made another table"
        wanted = found
        took[workers] = float(re.search(r" in (\S+) s:", printed)[1])
    return took


def sentence(words, took):
    """Returns the times as one sentence. It names only the numbers of workers in WORDS."""
    parts = [f"{took[workers]:.0f} s {name}" for workers, name in WORDS.items() if workers in took]
    total = words.machines * words.stamps
    most = total / min(took.values()) / 1e6
    return (f"{total:,} stamps of {words.machines:,} machines took {', '.join(parts)}: at most "
            f"{most:.1f} million stamps a second.")


def main():
    parser = argparse.ArgumentParser(description=__doc__.partition("\n\n")[0])
    parser.add_argument("--machines", type=int, default=1000)
    parser.add_argument("--stamps", type=int, default=1_000_000)
    parser.add_argument("--minutes", type=float, default=12)
    parser.add_argument("--runs", type=lambda text: list(map(int, text.split(","))),
                        default=[0, 4, 2, 1])
    parser.add_argument("folder", nargs="?", default="/tmp")
    words = parser.parse_args()
    needed = BYTES * words.machines * words.stamps + SPARE
    free = shutil.disk_usage(words.folder).free
    if free < needed:
        sys.exit(f"{words.folder} has {free >> 20} MiB free instead of {needed >> 20}")
    for number in (signal.SIGTERM, signal.SIGHUP):
        signal.signal(number, lambda *_: sys.exit("ended by a signal"))
    with tempfile.TemporaryDirectory(dir=words.folder, prefix="fleet-") as work:
        took = measure(words, work)
    print(sentence(words, took) if took else "no run had the time")


if __name__ == "__main__":
    main()
