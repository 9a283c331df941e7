#!/usr/bin/env python3
# SPDX-License-Identifier: MIT OR Apache-2.0
"""Converts the stamps of a fleet of machines into one table in the order of TAI, by Dask.

    fleet.py [--workers N | --scheduler ADDRESS] [--rows ROWS] FOLDER TABLE

FOLDER contains the files of make.py. TABLE is a folder without a table, which gets the files
00000.npy, 00001.npy, ..: rows of TAI in ns, the number of the machine, and the event. All rows of a
file are before the rows of the next one. A file has about ROWS rows, by default 4,000,000. N is the
number of processes on this machine, by default 2; 0 converts in this process without Dask. With
ADDRESS, the workers of that scheduler must see both folders.

One machine's stamps are one task, and one file of the table is another. A task writes its file
under another name first, and returns only a few numbers. So Dask can repeat the tasks of a worker
that died, and no stamp is lost. A stamp takes 8 bytes of the disk until the table is whole, and 12
in the table. The program prints the greatest disagreement between machines that saw one event: with
the clocks as they were opened, and with the journals.

It ends with status 1 if FOLDER has no machine, or more than 65,536; if a machine has no stamp, or
saw more than 32,768 events; or if a script, a stamp or a file has a fault.
"""
import argparse
import os
import sys
import time
import uuid
from pathlib import Path

import numpy

import tkcore
from tkcore import ClockId

ROW = numpy.dtype([("tai", "u8"), ("machine", "u2"), ("event", "i2")])
MOST_MACHINES, MOST_EVENTS = 2**16, 2**15  # that a row can number
ROWS_OF_A_FILE = 4_000_000
BLOCK = 1024


class Run:
    """A machine's times of TAI, ascending, in a file of the table's folder.

    `sample` contains each BLOCK-th time, so that a reader of a part finds it without the others."""

    def __init__(self, table, name, tai):
        self.path = Path(table, f"{name}.run")
        self.rows, self.least, self.greatest = len(tai), int(tai[0]), int(tai[-1])
        self.sample = tai[::BLOCK].copy()
        save(self.path, tai.tofile)

    def blocks(self, bounds):
        """Returns the first and the last block that may contain times from each bound to below the
        next one."""
        before = numpy.searchsorted(self.sample, bounds)
        return numpy.stack([numpy.maximum(before[:-1] - 1, 0), before[1:]], axis=1)

    def part(self, blocks, bounds):
        """Returns the times from a bound to below the next one, which are in these blocks, and the
        place of the first one."""
        first, last = (int(it) * BLOCK for it in blocks)
        tai = numpy.fromfile(self.path, numpy.uint64, last - first, offset=8 * first)
        start, end = numpy.searchsorted(tai, bounds)
        return tai[start:end], first + int(start)


def save(path, write):
    """Writes a file that is there whole or not at all. A worker that dies leaves a .part of it."""
    part = path.with_name(f"{path.name}.{uuid.uuid4().hex}.part")
    with open(part, "wb") as file:
        write(file)
    os.replace(part, path)


def convert(folder, table, name):
    """Converts a machine's stamps into its run. Returns the run, the places there of the events
    that all machines saw, and the times of these events, by the opening and by the journal."""
    with open(Path(folder, f"{name}.csv"), encoding="ascii") as script:
        journal = tkcore.Journal.from_script(script)
    stamps = numpy.load(Path(folder, f"{name}.stamps.npy"))
    places, events = numpy.load(Path(folder, f"{name}.seen.npy"))
    if not len(stamps) or len(events) > MOST_EVENTS:
        raise ValueError(f"{name} has {len(stamps)} stamps, and {len(events)} events that all saw")
    places = places[numpy.argsort(events)]
    tai = journal.convert(stamps, ClockId.TAI, numpy.empty_like(stamps))
    before, after = journal.snapshots[0].convert(stamps[places], ClockId.REALTIME), tai[places]
    if (tai[1:] < tai[:-1]).any():  # a step moved TAI back
        order = numpy.argsort(tai, kind="stable")
        tai, places = tai[order], numpy.argsort(order)[places]
    return Run(table, name, tai), places, before, after


def merge(table, number, bounds, runs, blocks, seen):
    """Merges the rows of all runs from a bound to below the next one into a file of the table.
    `seen` has the places and the numbers of each run's events there. Returns the number of rows."""
    parts = []
    for machine, run in enumerate(runs):
        tai, first = run.part(blocks[machine], bounds)
        rows = numpy.empty(len(tai), ROW)
        rows["tai"], rows["machine"], rows["event"] = tai, machine, -1
        for place, event in seen.get(machine, ()):
            rows["event"][place - first] = event
        parts.append(rows)
    rows = numpy.concatenate(parts)
    rows = rows.take(numpy.argsort(numpy.ascontiguousarray(rows["tai"]), kind="stable"))
    save(Path(table, f"{number:05}.npy"), lambda file: numpy.save(file, rows))
    return len(rows)


def merges(table, done, rows_of_a_file):
    """Returns the arguments of each merge."""
    runs = [it[0] for it in done]
    least, greatest = min(run.least for run in runs), max(run.greatest for run in runs)
    files = max(1, sum(run.rows for run in runs) // rows_of_a_file)
    bounds = numpy.array([least + (greatest + 1 - least) * file // files
                          for file in range(files + 1)], numpy.uint64)
    blocks = numpy.stack([run.blocks(bounds) for run in runs])
    seen = [{} for _ in range(files)]
    for machine, (_, places, _, after) in enumerate(done):
        for event, file in enumerate(numpy.searchsorted(bounds, after, "right") - 1):
            seen[file].setdefault(machine, []).append((int(places[event]), event))
    for run in runs:
        run.sample = None
    return [(table, file, bounds[file:file + 2], runs, blocks[:, file], seen[file])
            for file in range(files)]


def disagreement(times):
    """Returns the greatest difference between machines that saw one event, in ns."""
    times = numpy.array(times).astype(numpy.int64)
    return int((times.max(axis=0) - times.min(axis=0)).max())


def run(map_all, folder, table, rows_of_a_file=ROWS_OF_A_FILE):
    """Makes the table. `map_all` calls a function with each tuple of arguments. Returns the number
    of rows, and the disagreement by the openings and by the journals."""
    names = sorted(path.stem for path in Path(folder).glob("*.csv"))
    if not 1 <= len(names) <= MOST_MACHINES:
        raise ValueError(f"{folder} has {len(names)} machines instead of 1 to {MOST_MACHINES}")
    done = map_all(convert, [(folder, table, name) for name in names])
    total = sum(run.rows for run, *_ in done)
    merged = map_all(merge, merges(table, done, rows_of_a_file))
    own = [run.path for run, *_ in done]
    for left in own + [*Path(table).glob("*.run.*.part"), *Path(table).glob("*.npy.*.part")]:
        left.unlink()
    if sum(merged) != total:
        raise RuntimeError(f"the table has {sum(merged)} rows instead of {total}")
    return total, disagreement([it[2] for it in done]), disagreement([it[3] for it in done])


def map_here(function, calls):
    return [function(*call) for call in calls]


def map_by(client, show=None):
    """Returns a function that maps by the workers of a client, and shows the futures."""
    def map_all(function, calls):
        futures = client.map(lambda call: function(*call), calls, pure=False)
        if show:
            show(futures)
        return client.gather(futures)
    return map_all


def run_by_dask(words):
    # (`--workers 0` needs no Dask)
    # pylint: disable-next=import-outside-toplevel
    from distributed import Client, LocalCluster, progress
    cluster = words.scheduler or LocalCluster(n_workers=words.workers, threads_per_worker=1,
                                              dashboard_address=None)
    with Client(cluster) as client:
        show = progress if sys.stdout.isatty() else None
        started = time.perf_counter()
        found = run(map_by(client, show), words.folder, words.table, words.rows)
        return *found, time.perf_counter() - started


def run_here(words):
    started = time.perf_counter()
    found = run(map_here, words.folder, words.table, words.rows)
    return *found, time.perf_counter() - started


def main():
    parser = argparse.ArgumentParser(description=__doc__.partition("\n")[0])
    parser.add_argument("--workers", type=int, default=2, metavar="N")
    parser.add_argument("--scheduler", metavar="ADDRESS")
    parser.add_argument("--rows", type=int, default=ROWS_OF_A_FILE, metavar="ROWS")
    parser.add_argument("folder", metavar="FOLDER")
    parser.add_argument("table", metavar="TABLE")
    words = parser.parse_args()
    words.folder, words.table = map(os.path.abspath, (words.folder, words.table))
    os.makedirs(words.table, exist_ok=True)
    if words.workers < 0 or words.rows < 1 or any(Path(words.table).glob("*.npy")):
        parser.error("N is negative, ROWS is below 1, or TABLE contains a table")
    is_by_dask = words.scheduler or words.workers
    try:
        total, before, after, took = (run_by_dask if is_by_dask else run_here)(words)
    except (OSError, ValueError, tkcore.Error) as error:
        sys.exit(f"fleet.py: {error}")
    print(f"{total} stamps in {took:.2f} s: {total / took:.0f} a second")
    print(f"greatest disagreement by the openings: {before} ns, by the journals: {after} ns")


if __name__ == "__main__":
    main()
