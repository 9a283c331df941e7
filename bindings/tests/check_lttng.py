#!/usr/bin/python3
# SPDX-License-Identifier: MIT OR Apache-2.0
"""Records events of a program by LTTng, and compares the times that babeltrace2 prints for the
trace by the plugin of examples/babeltrace2: with babeltrace2's own while the script has no
commands, and then with those of the definitions, across a step, a new TAI offset and a setting of
the clocks.

It needs LTTng (Debian's lttng-tools and liblttng-ust-dev), gcc, and babeltrace2 with bt2. A daemon
that it starts ends with it.
"""
import contextlib
import os
import re
import subprocess
import sys
import tempfile
import time
from pathlib import Path

from check_babeltrace2 import ROOT, model, printed

STAMPS = ROOT / "examples" / "python" / "stamps.py"
EVENTS = 1000
PROGRAM = f"""
#include <lttng/tracef.h>

int main(void)
{{
	for (int i = 0; i < {EVENTS}; i++)
		tracef("%d", i);
	return 0;
}}
"""


def run(*command, **more):
    """Runs a command that must succeed, and returns its output."""
    ran = subprocess.run(list(map(str, command)), capture_output=True, text=True, check=False,
                         **more)
    assert ran.returncode == 0, (command, ran.stderr)
    return ran.stdout


def lttng(*words, status=0):
    """Runs lttng, and returns whether it ended with the status 0."""
    ran = subprocess.run(["lttng", "--no-sessiond", *map(str, words)], capture_output=True,
                         text=True, check=False)
    assert status is None or ran.returncode == status, (words, ran.stdout, ran.stderr)
    return ran.returncode == 0


@contextlib.contextmanager
def a_daemon():
    """Starts a session daemon unless one is running."""
    if lttng("list", status=None):
        yield
        return
    with subprocess.Popen(["lttng-sessiond", "--no-kernel"], stdout=subprocess.DEVNULL,
                          stderr=subprocess.DEVNULL) as daemon:
        try:
            for _ in range(1200):
                if lttng("list", status=None):
                    break
                time.sleep(0.05)
            yield
        finally:
            daemon.terminate()


def record(work):
    """Records the program's events, and returns the folder of the trace."""
    (work / "program.c").write_text(PROGRAM, encoding="ascii")
    run("gcc", work / "program.c", "-o", work / "program", "-llttng-ust")
    session = f"tkcore-{os.getpid()}"
    with a_daemon():
        lttng("create", session, f"--output={work / 'trace'}")
        lttng("enable-event", "--session", session, "--userspace", "lttng_ust_tracef:*")
        lttng("start", session)
        run(work / "program", env={**os.environ, "LTTNG_UST_REGISTER_TIMEOUT": "20000"})
        lttng("stop", session)
        lttng("destroy", session)
    return next((work / "trace").rglob("metadata")).parent


def times_of(text):
    """Returns the time of each event in nanoseconds, in the trace's order."""
    found = re.findall(r"^\[(\d+)\.(\d{9})\].*\bmsg\W+(\d+)", text, re.M)
    assert [int(number) for _, _, number in found] == list(range(EVENTS)), text[:300]
    return [int(sec + nsec) for sec, nsec, _ in found]


def compare(trace, script, clock, wanted):
    found = printed(trace, f'script="{script}"', f'clock="{clock}"')
    assert found.returncode == 0, found.stderr
    assert times_of(found.stdout) == wanted, f"other times of {clock}"


def main():
    with tempfile.TemporaryDirectory() as folder:
        work = Path(folder)
        trace = record(work)
        described = run("babeltrace2", trace, "-o", "ctf-metadata")
        opening = run(STAMPS, "clock", input=described)
        script = work / "trace.csv"
        script.write_text(opening, encoding="ascii")
        compare(trace, script, "realtime", times_of(run("babeltrace2", "--clock-seconds", trace)))
        lines = run("babeltrace2", "--clock-cycles", trace)
        cycles = [int(cycle) for cycle in re.findall(r"^\[(\d+)\]", lines, re.M)]
        script.write_text(f"{opening}step,{cycles[300]},-2,500000000\ntai,{cycles[301]},37\n"
                          f"set,{cycles[600]},2000000000,5\n", encoding="ascii")
        items = run(STAMPS, "ctf", script, input=lines).encode()
        for clock in ("realtime", "monotonic", "tai"):
            wanted = model.trace(clock, script.read_bytes(), items)
            compare(trace, script, clock, [int(nanos) for nanos in wanted])
    print(f"check_lttng: the times of {EVENTS} recorded events are those of the definitions")


if __name__ == "__main__":
    sys.exit(main())
