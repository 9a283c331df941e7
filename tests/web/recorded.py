#!/usr/bin/env python3
"""Lets tkrun record programs for which REALTIME goes back, and compares what the page says of the
record and its readers with what the programs print.

    tests/web/recorded.py FOLDER TKRUN [--node FLAG]

FOLDER has tkcore.wasm and session.wasm.
"""
import argparse
import base64
import json
import pathlib
import subprocess
import sys
import tempfile

TOP = pathlib.Path(__file__).resolve().parents[2]

# prints its process; reads REALTIME by two calls, at 1,000,000,000 s and at 5 s
READS = """print "$$\\n"; time; system 'date -u -s \\@5 >/dev/null'; time;
syscall(228, 0, my $now = pack 'q2', 0, 0); system '/usr/bin/date +%s >/dev/null'"""


def say(given, script, readers):
    """Returns what the page says of the reads of a script."""
    line = b" ".join(map(base64.b64encode, (script, readers)))
    words = ["node", *given.node, str(TOP / "tests/web/reports.mjs"), given.folder]
    ran = subprocess.run(words, input=line + b"\n", capture_output=True, check=True)
    status, _, error, drawn = json.loads(ran.stdout)
    if status:
        sys.exit(f"recorded: the page differs from the record: {error}")
    return drawn["reads"]


def main():
    read = argparse.ArgumentParser(usage=__doc__)
    read.add_argument("folder")
    read.add_argument("tkrun")
    read.add_argument("--node", action="append", default=[])
    given = read.parse_args()
    with tempfile.TemporaryDirectory() as folder:
        path = pathlib.Path(folder, "r")
        run = subprocess.run([given.tkrun, "--counter", "sleeps", "--start", "1000000000", "--record", path,
                              "--readers", "--", "/usr/bin/perl", "-e", READS],
                             capture_output=True, text=True, check=False)
        if run.returncode:
            sys.exit(f"recorded: {run.stderr}")
        said = say(given, path.read_bytes(), path.with_name("r.readers").read_bytes())
    process = run.stdout.strip()
    wanted = [f"realtime read by perl, process {process}: 1 by clock_gettime",
              f"realtime_coarse went back for perl, process {process}, once, by 999999995.000000000 s at record "]
    if any(not any(line.startswith(start) for line in said) for start in wanted):
        sys.exit("\n".join(["recorded: the page says:", *said, "and not:", *wanted]))
    print("what the page says of a record of tkrun is what its programs did")


if __name__ == "__main__":
    main()
