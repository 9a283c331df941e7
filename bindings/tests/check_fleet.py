#!/usr/bin/env python3
# SPDX-License-Identifier: MIT OR Apache-2.0
"""Makes a fleet, and its table in one process, by Dask's workers, one of which is killed amid each
half of the work, and by the workers of a scheduler, with Dask's progress bar. All tables must be
the same, in the order of TAI, and a sample of the times those of the definitions. Folders with a
fault must be refused in one line.

    check_fleet.py [MACHINES STAMPS FOLDER]

24 machines of 50,000 stamps are the default, in a folder that is removed at the end. In FOLDER a
stamp takes 28 bytes. With few machines or stamps the work may end before a worker is killed, and
the test fails.

It needs numpy and distributed (Debian's python3-distributed).
"""
import contextlib
import hashlib
import json
import os
import pty
import random
import re
import signal
import subprocess
import sys
import tempfile
import threading
import time
from bisect import bisect_left, bisect_right
from pathlib import Path
from unittest import mock

ROOT = Path(__file__).resolve().parents[2]
FOLDER = ROOT / "examples" / "fleet"
sys.path[:0] = [str(FOLDER), str(ROOT / "tests" / "model")]
os.environ["PYTHONPATH"] = os.pathsep.join([str(FOLDER), os.environ.get("PYTHONPATH", "")])

# pylint: disable=wrong-import-position
import numpy
from distributed import Client, LocalCluster

import fleet
import make
import model

SAMPLED_MACHINES, SAMPLED_STAMPS = 24, 10


def kill_one(client, futures, killed):
    """Kills a worker once a task has ended. Notes how many tasks hadn't."""
    workers = sorted(client.run(os.getpid).values())

    def kill():
        while not any(future.done() for future in futures):
            time.sleep(0.001)
        os.kill(workers[0], signal.SIGKILL)
        killed.append(sum(not future.done() for future in futures))

    threading.Thread(target=kill).start()


def table_by_dask(data, table, rows, killed):
    """Makes the table by two workers. Kills one amid the conversions and one amid the merges."""
    with LocalCluster(n_workers=2, threads_per_worker=1, dashboard_address=None,
                      local_directory=str(Path(table).parent)) as cluster:
        with Client(cluster) as client:
            def show(futures):
                kill_one(client, futures, killed)
            return fleet.run(fleet.map_by(client, show), data, table, rows)


@contextlib.contextmanager
def a_scheduler(work):
    """Starts a scheduler with two workers, as separate programs. Yields its address."""
    file, python = str(Path(work, "scheduler.json")), [sys.executable, "-m"]
    with open(Path(work, "scheduler.log"), "wb") as log, contextlib.ExitStack() as ended:
        for command in (["scheduler", "--port", "0", "--no-dashboard"],
                        *[["worker", "--nthreads", "1", "--no-dashboard"]] * 2):
            started = subprocess.Popen([*python, f"distributed.cli.dask_{command[0]}", *command[1:],
                                        "--scheduler-file", file], stdout=log, stderr=log,
                                       cwd=work)
            ended.callback(started.wait)
            ended.callback(started.terminate)
        for _ in range(2400):
            if Path(file).exists():
                break
            time.sleep(0.05)
        address = json.loads(Path(file).read_text(encoding="utf-8"))["address"]
        with Client(address) as client:
            client.wait_for_workers(2, timeout=120)
        yield address


def run_in_a_terminal(*command):
    """Runs a command whose output is a terminal. Returns what it shows there."""
    here, there = pty.openpty()
    with subprocess.Popen(command, stdout=there) as program:
        os.close(there)
        shown = b""
        with contextlib.suppress(OSError):  # the terminal's other end is closed
            while part := os.read(here, 4096):
                shown += part
        assert program.wait() == 0, shown
    os.close(here)
    return shown.decode()


def files_of(table):
    return sorted(Path(table).glob("*.npy"))


def seen_in(path):
    """Checks that the rows of a file are in the order of TAI. Returns the first and the last time,
    the file's name, and the digest of its bytes."""
    rows = numpy.load(path)
    tai = rows["tai"]
    assert (tai[1:] >= tai[:-1]).all(), f"{path} isn't in the order of TAI"
    return int(tai[0]), int(tai[-1]), path.name, hashlib.blake2b(rows.data).hexdigest()


def taken(table, data=None, map_files=map):
    """Checks the order of all rows, and a sample of the times if `data` is given. Removes the
    table, and returns what `seen_in` found in its files."""
    files = list(map_files(seen_in, files_of(table)))
    for (_, last, *_), (first, *_) in zip(files, files[1:]):
        assert last <= first, "the files aren't in the order of TAI"
    if data:
        check_sample(data, table, [first for first, *_ in files])
    for path in files_of(table):
        path.unlink()
    assert not os.listdir(table), "the table's folder has other files"
    return files


def check_sample(data, table, firsts):
    """Compares times with those of tests/model/model.py: the table has a row of each."""
    rng = random.Random(1)
    files, scripts = files_of(table), sorted(Path(data).glob("*.csv"))
    for number in rng.sample(range(len(scripts)), min(len(scripts), SAMPLED_MACHINES)):
        script = scripts[number]
        journal, records = model.parsed(script.read_bytes())
        for word, (reading, *fields) in records:
            journal, line = model.done(journal, word, reading, fields, False)
            assert line.startswith("ok"), line
        readings = [journal.reading(place) for place in range(len(journal.entries) + 1)]
        stamps = numpy.load(script.with_suffix(".stamps.npy"), mmap_mode="r")
        for place in rng.sample(range(len(stamps)), SAMPLED_STAMPS):
            stamp = int(stamps[place])
            front = sum(reading <= stamp for reading in readings) - 1
            time_of = journal.prefix(front).value("tai", stamp)
            rows = numpy.load(files[max(bisect_right(firsts, time_of) - 1, 0)], mmap_mode="r")
            start, end = (find(rows["tai"], numpy.uint64(time_of))
                          for find in (bisect_left, bisect_right))
            assert number in rows["machine"][start:end], (script, place)


def check_refused(work):
    """Checks that folders with a fault are refused in one line."""
    data, table = Path(work, "faulty"), Path(work, "none")
    data.mkdir()

    def refused(reason, *options, status=1):
        ran = subprocess.run([sys.executable, FOLDER / "fleet.py", "--workers", "0", *options, data,
                              table], capture_output=True, text=True, check=False)
        assert ran.returncode == status and not ran.stdout, (reason, ran)
        assert reason in ran.stderr.splitlines()[-1], (reason, ran.stderr)

    refused(f"{data} has 0 machines instead of 1 to 65536")
    make.make(data, 2, 100)
    script, stamps, seen = (Path(data, f"machine-0001.{kind}")
                            for kind in ("csv", "stamps.npy", "seen.npy"))
    refused("N is negative", "--workers", "-1", status=2)
    refused("ROWS is below 1", "--rows", "0", status=2)
    numpy.save(seen, numpy.zeros((2, 2**15 + 1), numpy.uint32))
    refused("machine-0001 has 100 stamps, and 32769 events that all saw")
    numpy.save(stamps, numpy.empty(0, numpy.uint64))
    refused("machine-0001 has 0 stamps")
    script.write_text("openhz,64,0,60,0,0,0\n", encoding="ascii")
    refused("hz is 0 instead of 1 to 4294967295")
    Path(table, "00000.npy").touch()
    refused("TABLE contains a table", status=2)
    with mock.patch.object(fleet, "MOST_MACHINES", 1):
        try:
            made = fleet.run(fleet.map_here, data, table)
        except ValueError as error:
            made = str(error)
    assert made == f"{data} has 2 machines instead of 1 to 1", made


def check_all(machines, stamps, rows, work):
    check_refused(work)
    data, table = str(Path(work, "data")), str(Path(work, "table"))
    for folder in (data, table):
        os.makedirs(folder, exist_ok=True)
    make.make(data, machines, stamps)
    alone = fleet.run(fleet.map_here, data, table, rows)
    total, before, after = alone
    assert total == machines * stamps and before > 100_000 > after, alone
    wanted = taken(table, data)
    killed = []
    Path(table, "00000.npy.00.part").touch()  # as a worker that is killed may leave one
    assert table_by_dask(data, table, rows, killed) == alone
    assert len(killed) == 2 and all(killed), "no worker was killed amid the work"
    assert taken(table) == wanted, "the table of two workers differs"
    with a_scheduler(work) as address:
        shown = run_in_a_terminal(sys.executable, FOLDER / "fleet.py", "--scheduler", address,
                                  "--rows", str(rows), data, table)
    assert len(re.findall(r"\[#+\] \| 100% Completed", shown)) >= 2, shown
    assert f"by the openings: {before} ns, by the journals: {after} ns" in shown, shown
    assert taken(table) == wanted, "the table of a scheduler's workers differs"
    print(f"check_fleet: {total} stamps in one table, also by a scheduler's workers, and after a "
          f"worker was killed with {killed[0]} of {machines} conversions to do, and one with "
          f"{killed[1]} of {len(wanted)} merges; disagreement {before} ns, then {after} ns")


def main():
    if len(sys.argv) > 1:
        machines, stamps = map(int, sys.argv[1:3])
        rows = min(fleet.ROWS_OF_A_FILE, machines * stamps // 12)
        check_all(machines, stamps, rows, sys.argv[3])
        return
    with tempfile.TemporaryDirectory() as work:
        check_all(24, 50_000, 100_000, work)


if __name__ == "__main__":
    main()
