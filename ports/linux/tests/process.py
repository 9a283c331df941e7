#!/usr/bin/env python3
# SPDX-License-Identifier: GPL-2.0
"""Runs the port's timekeeping.c and ntp.c in this process, next to the unmodified ones.

    ports/linux/tests/process.py DIST [COUNT [SEED]]     COUNT is the number of calls (20,000)

It applies the port to the kernel's source, and compiles both over the stand-ins of
tests/kernel_ntp. SOURCES may name a folder that kernel.unpack has filled. Then it compares random
calls:

  - all clocks of the port, also by the reads for an NMI, with the definitions of tests/model: equal
  - whether timers and cross timestamps notice that REALTIME or TAI was set: if it was
  - the SSE registers before and after a tick that uses them: equal
  - with CONFIG_NTP_PPS, pulses too, the fields of each reply that show the signal, and the lines in
    the log: equal
  - the errno of wrong arguments of adjtimex(2) and settimeofday(2) with the unmodified kernel's:
    equal
  - their audit records, and the number of their log lines of leap seconds: equal
  - what seconds gain with ntp_tick_adj=: equal but for the unmodified kernel's rounding
  - a TAI offset that puts TAI past the limit of all clocks: EINVAL, where the unmodified kernel has
    no limit
  - the answer to a counter that the library refuses: an error, and the old counter stays in use
  - MONOTONIC with the times that the frequencies say, with ticks as rare as the port allows
  - MONOTONIC at the reading of a tick, before and after the tick: it goes back at no tick of the
    port, and does with -DTKC_CONTROL

It ends with status 1 at the first difference, and if a kernel warns.
"""
import ctypes
import os
import pathlib
import shutil
import subprocess
import sys
import tempfile

HERE = pathlib.Path(__file__).resolve().parent
TOP = HERE.parents[2]
sys.path[:0] = [str(TOP / "tests/kernel_ntp"), str(TOP / "tests/model"), str(HERE)]
sys.dont_write_bytecode = True
import kernel  # noqa: E402
from random_calls import EINVAL, HZ, OTHER, Timeline  # noqa: E402
from random_pulses import PulseTimeline  # noqa: E402
from single import (compare_tick_adj, pass_limit, refuse_counter, swing,  # noqa: E402
                    ticks_back)
from wrong_calls import Wrong  # noqa: E402

SWING_NS = 100  # that MONOTONIC may be off by between rare ticks


def compile_one(folder, name, dist, *flags):
    """Compiles the kernel of a folder, and returns its calls."""
    out = folder / f"{name}.so"
    paths = [f"-I{it}" for it in (TOP / "tests/kernel_ntp", folder / "stand-ins", folder,
                                  folder / "include", folder / "include/uapi")]
    subprocess.run(["gcc", *kernel.FLAGS, f"-DHZ={HZ}", f"-DOTHER={OTHER}ULL", *flags, *paths,
                    HERE / "process.c", HERE / "persistent.c", "-o", out,
                    *([dist / "lib/libtkcore_kernel_sse.a"] if dist else [])], check=True)
    calls = ctypes.CDLL(str(out))
    calls.process_time.restype = ctypes.c_int64
    calls.process_printed.restype = ctypes.c_char_p
    if dist:
        calls.process_leap.restype = calls.process_max_deferment.restype = ctypes.c_int64
    return calls


def compile_all(folder, dist):
    """Returns the calls of the unmodified kernel, and of the port: as it is, as a control, and with
    CONFIG_NTP_PPS."""
    if kept := os.environ.get("SOURCES"):
        shutil.copytree(kept, folder, symlinks=True, dirs_exist_ok=True)
    else:
        kernel.unpack(folder)
    stand_in = folder / "stand-ins/asm/tlbflush.h"
    stand_in.symlink_to(TOP / "tests/kernel_ntp/linux.h")
    unmodified = compile_one(folder, "unmodified", None)
    shutil.copy(dist / "include/tkcore.h", folder / "tkcore.h")
    (folder / "kernel/time/Makefile").touch()
    subprocess.run([HERE.parent / "apply", folder], check=True)
    shutil.copy(dist / "include/tkcore.h", folder / "kernel/time/tkcore/tkcore.h")
    return (unmodified, compile_one(folder, "tkcore", dist, "-DTKC_CONTROL=0"),
            compile_one(folder, "control", dist, "-DTKC_CONTROL=1"),
            compile_one(folder, "pulses", dist, "-DTKC_CONTROL=0", "-DCONFIG_NTP_PPS=1"))


def main():
    if len(sys.argv) not in (2, 3, 4) or sys.argv[1][:1] == "-":
        sys.exit(__doc__)
    dist = pathlib.Path(sys.argv[1]).resolve()
    count, seed = (int(it) for it in (*sys.argv[2:], *("20000", "1")[len(sys.argv) - 2:]))
    with tempfile.TemporaryDirectory() as name:
        unmodified, port, control, with_pulses = compile_all(pathlib.Path(name), dist)
        wrong = Wrong(seed, unmodified, port)
        wrong.compare(max(1000, count // 10))
        timeline = Timeline(seed, port)
        for _ in range(count):
            timeline.step()
        pulsed = PulseTimeline(seed, with_pulses)
        for _ in range(count):
            pulsed.step()
        compare_tick_adj(unmodified, port)
        limits = pass_limit(unmodified) >= 0, pass_limit(port)
        backs, off = (ticks_back(port), ticks_back(control)), swing(port)
        refused = refuse_counter(port)
        warned = sum(ctypes.c_int.in_dll(it, "kernel_warnings").value for it in (port, with_pulses))
    if limits != (True, EINVAL):
        sys.exit(f"process: at the limit, the answers are {limits}")
    if refused != (-1, 1, 0):
        sys.exit(f"process: the answers to a counter that the library refuses are {refused}")
    if backs[0] or not backs[1]:
        sys.exit(f"process: MONOTONIC goes back at {backs[0]} ticks, and {backs[1]} of the control")
    if off > SWING_NS:
        sys.exit(f"process: MONOTONIC is off by {off} ns, with ticks as far apart as they may be")
    if warned:
        sys.exit(f"process: the port warned {warned} times")
    if not pulsed.rates:
        sys.exit("process: no pulse has a frequency that changes the rate")
    if len(pulsed.lines) != 4:
        sys.exit(f"process: there are only these lines of hardpps in the log: {pulsed.lines}")
    kinds = ", ".join(f"{number} of {kind}" for kind, number in timeline.kinds.items())
    print(f"process: {wrong.refused} wrong calls have the errno of the unmodified kernel, and "
          f"{wrong.changes} audit records are equal")
    print(f"process: {kinds}: all clocks are those of the definitions")
    print(f"process: {pulsed.kinds['pulse']} pulses, {pulsed.taken} intervals, {pulsed.rates} of them "
          f"with another rate, {pulsed.lost} lost signals and {sum(pulsed.lines.values())} lines in "
          "the log are those of the definitions")
    print(f"process: MONOTONIC goes back at no tick, and at {backs[1]} of the control")
    return 0


if __name__ == "__main__":
    sys.exit(main())
