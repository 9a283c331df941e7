# SPDX-License-Identifier: GPL-2.0
"""Single sequences of calls, for process.py."""
import ctypes
import random
import sys

from kernel import Timex
from model import NANOS
from ntp import FREQUENCY, NANO, OFFSET, STA_PLL, STATUS, TICK
from wrong_calls import s64, u64

ADJ_TAI = 0x80
SETTABLE, LIMIT = 8277292036, 9223372036  # TIME_SETTOD_SEC_MAX, KTIME_SEC_MAX


def pass_limit(calls):
    """Returns the answer to a TAI offset of 37 s, with REALTIME 12 s below the limit of clocks."""
    calls.process_boot(64, 8388608, 23, u64(0), s64(0), s64(0), u64(0))
    calls.process_settime(ctypes.c_int64(SETTABLE - 1), ctypes.c_int64(0), u64(10**7))
    calls.process_suspend(u64(2 * 10**7))
    calls.process_resume(u64((LIMIT - 11 - SETTABLE) * NANOS), u64(3 * 10**7))
    request = Timex.of(modes=ADJ_TAI, constant=37)
    return calls.process_adjtimex(ctypes.byref(request), u64(4 * 10**7))


def refuse_counter(calls):
    """Goes on with a counter that the library refuses. Returns the answer, how many times the port
    warns, and by how many ns MONOTONIC, the old counter's, is off 1 s later."""
    calls.process_boot(64, 8388608, 23, u64(0), s64(0), s64(0), u64(0))
    warnings = ctypes.c_int.in_dll(calls, "kernel_warnings")
    before = warnings.value
    code = calls.process_switch(64, 0, 23, u64(10**7))
    warned, warnings.value = warnings.value - before, before
    calls.process_tick(u64(10**9))
    return code, warned, calls.process_time(1, u64(10**9)) - 10**9


def ticks_back(calls):
    """Returns how many of 2,000 ticks let MONOTONIC go back, while offsets change the rate."""
    calls.process_boot(64, 8388608, 23, u64(0), s64(0), s64(0), u64(0))
    back = 0
    for number in range(1, 2001):
        reading = number * 7 * 10**6
        before = calls.process_time(1, u64(reading))
        calls.process_tick(u64(reading))
        back += calls.process_time(1, u64(reading)) < before
        if number % 300 == 1:
            request = Timex.of(modes=OFFSET | STATUS | NANO, status=STA_PLL,
                               offset=10**8 if number % 600 == 1 else -10**8)
            calls.process_adjtimex(ctypes.byref(request), u64(reading))
    return back


def gained(calls, tick_adj, ppm):
    """Boots with ntp_tick_adj=, asks for a frequency unless it is 0, and returns the ns that 10 s
    gain, and the frequency that a reply then has."""
    calls.process_boot(64, 8388608, 23, u64(0), s64(tick_adj), s64(0), u64(0))
    request = Timex.of(modes=FREQUENCY | TICK, freq=ppm << 16, tick=10_000)
    if ppm:
        calls.process_adjtimex(ctypes.byref(request), u64(0))
    for number in range(1, 2501):
        calls.process_tick(u64(number * 4 * 10**6))
    reply = Timex.of(modes=0)
    calls.process_adjtimex(ctypes.byref(reply), u64(10**10))
    return calls.process_time(1, u64(10**10)) - 10**10, reply.freq


def compare_tick_adj(unmodified, port):
    """Compares what seconds gain with ntp_tick_adj=. The unmodified kernel's rate has a tick's error."""
    for ns in 0, 30_999, -70_000, 400_000:
        (old, was), (new, freq) = gained(unmodified, ns, 20), gained(port, ns, 20)
        if abs(new - 10 * (ns + 20_000)) > 20 or abs(new - old) > 2000 or (was, freq) != (20 << 16,) * 2:
            sys.exit(f"process: with ntp_tick_adj={ns}, 10 s gain {new} ns, in the unmodified kernel "
                     f"{old}, and the frequencies are {freq} and {was}")
    new, freq = gained(port, -70_000, 0)
    if abs(new + 700_000) > 20 or freq:
        sys.exit(f"process: with ntp_tick_adj=-70000 and no request, 10 s gain {new} ns")


def swing(calls):
    """Returns by how many ns MONOTONIC is off at most, if the kernel is as idle as it may be while
    requests change the frequency."""
    calls.process_boot(64, 8388608, 23, u64(0), s64(0), s64(0), u64(0))
    pause, chosen = calls.process_max_deferment(), random.Random(1)
    now = ideal = worst = 0
    for _ in range(60):
        ppm, end = chosen.randrange(-400, 400), now + chosen.randrange(NANOS, 16 * NANOS)
        request = Timex.of(modes=FREQUENCY | TICK, freq=ppm << 16, tick=10_000)
        calls.process_adjtimex(ctypes.byref(request), u64(now))
        ideal += ppm * (end - now) // 10**6
        while now + pause < end:
            now += pause
            calls.process_tick(u64(now))
        now = end
        worst = max(worst, abs(calls.process_time(1, u64(now)) - now - ideal))
    return worst
