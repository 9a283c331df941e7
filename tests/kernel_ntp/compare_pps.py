#!/usr/bin/env python3
"""Gives random pulses and requests to the kernel's own kernel/time/ntp.c with CONFIG_NTP_PPS and to the
definitions of tests/model/pps.py, and stops at the first answer that differs.

    tests/kernel_ntp/compare_pps.py COUNT [SEED]        COUNT is the number of orders
    tests/kernel_ntp/compare_pps.py < orders            writes the kernel's answers to these orders

The kernel's code comes from Debian's package linux-source-6.1, or from the folder that the variable SOURCES
names. The state in an `adj` isn't compared: the kernel has one state, and the one in the `pps` is compared.
"""
import _ctypes
import ctypes
import os
import random
import sys
import tempfile
from pathlib import Path

from kernel import HERE, Timex, compiled, unpack

sys.path.insert(0, os.fspath(HERE.parent / "model"))
import ntp  # noqa: E402
import pps  # noqa: E402

STATES = "Ok", "Ins", "Del", "Oop", "Wait", "Error"
INT64 = ctypes.c_int64


class Session:
    """The kernel's discipline and its TAI offset, and its answers to orders."""

    def __init__(self, sources):
        self.sources, self.calls, self.hz = sources, None, 0
        self.tai = ctypes.c_int32(0)

    def answers(self, order):
        word, *numbers = order.split(",")
        return getattr(self, word)(*map(int, numbers)) if self.calls or word == "new" else ["no"]

    def new(self, hz):
        self.close()
        self.calls = ctypes.CDLL(os.fspath(compiled(self.sources, hz, "pps.c")))
        self.calls.kernel_open.restype = self.calls.kernel_tick_length.restype = ctypes.c_uint64
        self.hz, self.tai.value = hz, 0
        return [f"new,{self.calls.kernel_open() * hz}"]

    def close(self):
        """Forgets the kernel: the next one starts anew."""
        if self.calls:
            _ctypes.dlclose(self.calls._handle)
            self.calls = None

    def length(self):
        return self.calls.kernel_tick_length() * self.hz

    def signal(self):
        return ["signal"]

    def second(self, sec):
        leap = self.calls.kernel_second(INT64(sec))
        if 0 <= self.tai.value - leap <= 100_000:
            self.tai.value -= leap
        return [f"second,{leap},{self.tai.value},{self.length()}"]

    def clear(self):
        self.calls.kernel_clear()
        return [f"clear,{self.length()}"]

    def pps(self, nsec, raw):
        self.calls.kernel_pulse(INT64(nsec), INT64(raw))
        return [f"pps,{self.calls.kernel_status() % 2**32},{self.length()}"]

    def adjtimex(self, sec, nsec, *fields):
        request = ntp.Timex(*fields)
        if request.is_faulty():
            return ["no"]
        lines = []
        if request.modes & ntp.SETOFFSET:
            self.calls.kernel_clear()
            lines.append(f"step,{request.sec},{request.sub * (1 if request.modes & ntp.NANO else 1000)}")
        timex = Timex.of(**dict(zip(ntp.FIELDS, fields)))
        times = INT64(sec), INT64(nsec)
        state = self.calls.kernel_adjtimex(ctypes.byref(timex), *times, ctypes.byref(self.tai))
        return lines + self.replied(timex, STATES[state])

    def replied(self, t, state):
        first = ("adj", state, t.sec, t.sub, t.offset, t.freq, t.maxerror, t.esterror, t.status, t.constant, t.tick,
                 t.tai, self.length())
        shown = t.ppsfreq, t.jitter, t.shift, t.stabil, t.jitcnt, t.calcnt, t.errcnt, t.stbcnt
        return [",".join(map(str, line)) for line in (first, ("pps", state, *shown))]


def without_state(line):
    """An `adj` without its state, and any other line."""
    word, *fields = line.split(",")
    return [word, *fields[1:]] if word == "adj" else [word, *fields]


def compare(sources, count, seed):
    """Compares the answers to random orders."""
    kernel, model, orders = Session(sources), pps.Session(), pps.Orders(seed, signals=1)
    replies = pulses = 0
    for _ in range(count):
        order = orders.next()
        theirs, ours = kernel.answers(order), model.answers(order)
        if list(map(without_state, theirs)) != list(map(without_state, ours)):
            sys.exit(f"compare_pps.py: seed {seed}: {order}\n  the kernel: {theirs}\n  the model:  {ours}")
        replies, pulses = replies + order.startswith("adj"), pulses + order.startswith("pps")
    print(f"kernel_ntp: {pulses} pulses and {replies} requests of seed {seed} are answered as by the kernel's ntp.c")


def main():
    with tempfile.TemporaryDirectory() as folder:
        sources = Path(os.environ.get("SOURCES", folder))
        if "SOURCES" not in os.environ:
            unpack(sources)
        if len(sys.argv) > 1:
            seed = int(sys.argv[2]) if len(sys.argv) > 2 else random.randrange(2**32)
            compare(sources, int(sys.argv[1]), seed)
            return
        session = Session(sources)
        for order in sys.stdin:
            for line in session.answers(order.strip()):
                print(line)


if __name__ == "__main__":
    main()
