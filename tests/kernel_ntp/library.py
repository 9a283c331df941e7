"""The clocks that are compared with the kernel's: those of libtkcore.so, and of the definitions."""
import ctypes
import os
import sys
from pathlib import Path

from kernel import Timex

sys.path.insert(0, str(Path(__file__).resolve().parents[1] / "model"))

# pylint: disable=wrong-import-position
import model
import ntp
import steered_clock

UPDATE, SET_TIME, SUSPEND, RESUME = 0, 1, 6, 7
COMMANDS = {UPDATE: "update", SET_TIME: "set", SUSPEND: "suspend", RESUME: "resume"}
CODES = {"full": 1, "asleep": 2, "awake": 3, "invalid": 4, "behind": 5, "range": 6}
CLOCKS = {0: "realtime", 1: "monotonic", 7: "boottime", 11: "tai"}
STATES = ["Ok", "Ins", "Del", "Oop", "Wait", "Error"]


class Time(ctypes.Structure):
    """struct tkc_time"""
    _fields_ = [("sec", ctypes.c_int64), ("nsec", ctypes.c_uint32), ("padding", ctypes.c_uint32)]


class Library:
    """Clocks of the library, opened at a reading. Readings above the counter's mask are passed
    without their upper bits."""
    calls = None

    def __init__(self, counter, reading, sec, nsec, hz):
        bits, mult, shift = counter
        self.mask = 2**bits - 1
        self.ntp = (ctypes.c_uint64 * 28)()
        described = (ctypes.c_uint32 * 3)()
        assert self.calls.tkc_counter_new(described, bits, mult, shift) == 0
        numbers = self.at(reading), ctypes.c_int64(sec), nsec, hz
        assert self.calls.tkc_ntp_open(self.ntp, described, *numbers) == 0

    @classmethod
    def load(cls, path):
        cls.calls = ctypes.CDLL(os.fspath(path))

    def at(self, reading):
        return ctypes.c_uint64(reading & self.mask)

    def adjtimex(self, timex, reading):
        """Returns the code, and the state."""
        state = ctypes.c_uint32(77)
        written = ctypes.byref(timex), ctypes.byref(state)
        code = self.calls.tkc_adjtimex(*written, self.ntp, self.at(reading))
        return code, state.value

    def apply(self, reading, command, number=0, nsec=0):
        numbers = command, ctypes.c_int64(number), nsec
        return self.calls.tkc_ntp_apply(self.ntp, self.at(reading), *numbers)

    def time(self, clock, reading):
        """Returns a clock's time in ns after all seconds up to the reading have begun. The clocks
        stay as they are."""
        after = type(self.ntp).from_buffer_copy(self.ntp)
        code = self.calls.tkc_ntp_advance(after, self.at(reading))
        assert code == 0, f"{code} at {reading}"
        snapshot, time = (ctypes.c_uint64 * 11)(), Time()
        self.calls.tkc_ntp_snapshot(snapshot, after)
        code = self.calls.tkc_snapshot_get(ctypes.byref(time), snapshot, clock, self.at(reading))
        assert code == 0, f"{code} at {reading}"
        return time.sec * 10**9 + time.nsec


class Model:
    """The same clocks by the definitions."""

    def __init__(self, counter, reading, sec, nsec, hz):
        self.mask = 2**counter[0] - 1
        real = sec * 10**9 + nsec
        described = model.Counter(*counter)
        self.clocks = steered_clock.Steered(described, reading & self.mask, real, hz)

    def adjtimex(self, timex, reading):
        request = ntp.Timex(*(getattr(timex, name) for name in ntp.FIELDS))
        try:
            reply = self.clocks.adjtimex(reading & self.mask, request)
        except steered_clock.Refused as refused:
            return CODES[str(refused)], 77
        names = "sec sub offset freq maxerror esterror status constant tick tai"
        for name, value in zip(names.split(), reply[1:]):
            setattr(timex, name, value)
        timex.precision, timex.tolerance = 1, 32_768_000
        for name in "ppsfreq jitter shift stabil jitcnt calcnt errcnt stbcnt".split():
            setattr(timex, name, 0)
        return 0, STATES.index(reply[0])

    def apply(self, reading, command, number=0, nsec=0):
        fields = {SET_TIME: (number, nsec), RESUME: (number, nsec)}.get(command, ())
        try:
            self.clocks.apply(reading & self.mask, COMMANDS[command], *fields)
        except steered_clock.Refused as refused:
            return CODES[str(refused)]
        return 0

    def time(self, clock, reading):
        self.clocks.advance(reading & self.mask)
        return self.clocks.clock.value(CLOCKS[clock], reading & self.mask)
