"""The kernel's own kernel/time/ntp.c and kernel/time/timekeeping.c, in this process.

They come from Debian's package linux-source-6.1 and are compiled at the time of the test. The
headers that they include come from there too, or linux.h stands in for them.
"""
import _ctypes
import ctypes
import functools
import os
import subprocess
from pathlib import Path

HERE = Path(__file__).resolve().parent
ARCHIVE = Path("/usr/src/linux-source-6.1.tar.xz")
SOURCES = """kernel/time/ntp.c kernel/time/timekeeping.c kernel/time/ntp_internal.h
    kernel/time/timekeeping_internal.h include/linux/clocksource.h include/linux/clocksource_ids.h
    include/linux/ktime.h include/linux/math64.h include/linux/time.h include/linux/time64.h
    include/linux/timekeeper_internal.h include/linux/timekeeping.h include/linux/timex.h
    include/uapi/linux/time.h include/uapi/linux/time_types.h include/uapi/linux/timex.h
    include/vdso/clocksource.h include/vdso/jiffies.h include/vdso/ktime.h include/vdso/math64.h
    include/vdso/time64.h""".split()
STAND_INS = """asm/bug asm/div64 asm/io asm/param asm/timex linux/audit linux/cache linux/capability
    linux/compiler linux/hrtimer linux/init linux/interrupt linux/jiffies linux/limits linux/list
    linux/math linux/minmax linux/mm linux/module linux/nmi linux/of linux/param linux/percpu
    linux/pvclock_gtod linux/random linux/rtc linux/sched linux/sched/clock linux/sched/loadavg
    linux/spinlock linux/stop_machine linux/syscore_ops linux/tick linux/time32 linux/timer
    linux/types linux/workqueue tick-internal vdso/limits vdso/time""".split()
FLAGS = ["-std=gnu11", "-O2", "-w", "-fno-strict-aliasing", "-fwrapv", "-D__KERNEL__", "-shared",
         "-fPIC"]


def unpack(folder):
    """Unpacks the sources into a folder."""
    names = [f"linux-source-6.1/{name}" for name in SOURCES]
    subprocess.run(["tar", "-xJf", ARCHIVE, "-C", folder, "--strip-components=1", "--occurrence=1",
                    *names], check=True)
    for name in STAND_INS:
        header = folder / "stand-ins" / f"{name}.h"
        header.parent.mkdir(parents=True, exist_ok=True)
        header.symlink_to(HERE / "linux.h")


@functools.cache
def compiled(folder, hz, source="kernel.c"):
    """Compiles the kernel with this many ticks a second. Returns the shared object's path."""
    out = folder / f"{Path(source).stem}{hz}.so"
    paths = [f"-I{folder / path}" for path in ("stand-ins", ".", "include", "include/uapi")]
    words = ["gcc", *FLAGS, f"-DHZ={hz}", *paths, HERE / source, "-o", out]
    subprocess.run(words, check=True)
    return out


def longs(names):
    return [(name, ctypes.c_int64) for name in names.split()]


class Timex(ctypes.Structure):
    """struct timex on x86-64, and struct tkc_timex."""
    _fields_ = [("modes", ctypes.c_uint32), ("modes_padding", ctypes.c_uint32),
                *longs("offset freq maxerror esterror"),
                ("status", ctypes.c_uint32), ("status_padding", ctypes.c_uint32),
                *longs("constant precision tolerance sec sub tick ppsfreq jitter"),
                ("shift", ctypes.c_int32), ("shift_padding", ctypes.c_uint32),
                *longs("stabil jitcnt calcnt errcnt stbcnt"),
                ("tai", ctypes.c_int32), ("padding", ctypes.c_uint32 * 11)]

    @classmethod
    def of(cls, **fields):
        """Makes a request. All other bytes are 0xa5."""
        timex = cls.from_buffer_copy(b"\xa5" * ctypes.sizeof(cls))
        for name, value in {"modes": 0, **fields}.items():
            setattr(timex, name, value)
        return timex

    def copy(self):
        return Timex.from_buffer_copy(self)

    def text(self):
        names = [name for name, _ in self._fields_ if "padding" not in name]
        return " ".join(f"{name}={getattr(self, name)}" for name in names)


class Kernel:
    """A kernel that has just booted. Only one can be there at a time."""

    def __init__(self, path, counter, reading, sec, nsec):
        self.calls = ctypes.CDLL(os.fspath(path))
        for name in ("ticks", "tick_length", "tick_cycles"):
            getattr(self.calls, f"kernel_{name}").restype = ctypes.c_uint64
        for name in ("time", "reftime", "leap_at"):
            getattr(self.calls, f"kernel_{name}").restype = ctypes.c_int64
        numbers = *counter, ctypes.c_uint64(reading), ctypes.c_int64(sec), nsec
        assert self.calls.kernel_open(*numbers) == 0
        self.step = self.calls.kernel_tick_cycles()

    def warnings(self):
        """Returns how often the kernel has warned."""
        return ctypes.c_int.in_dll(self.calls, "kernel_warnings").value

    def close(self):
        """Forgets the kernel, so that another one can boot."""
        _ctypes.dlclose(self.calls._handle)

    def ticks(self, first, reading):
        """Makes the ticks up to a reading. Returns the reading of the next one, and the sum of the
        changes of a tick's length, its least and its greatest value, in 2^-32 ns."""
        lengths = (ctypes.c_uint64 * 3)()
        numbers = map(ctypes.c_uint64, (first, self.step, reading))
        return self.calls.kernel_ticks(lengths, *numbers), *lengths

    def adjtimex(self, timex, reading):
        """Returns the state, or a negative error."""
        return self.calls.kernel_adjtimex(ctypes.byref(timex), ctypes.c_uint64(reading))

    def settime(self, sec, nsec, reading):
        return self.calls.kernel_settime(ctypes.c_int64(sec), nsec, ctypes.c_uint64(reading))

    def suspend(self, reading):
        self.calls.kernel_suspend(ctypes.c_uint64(reading))

    def resume(self, ns, reading):
        self.calls.kernel_resume(ctypes.c_uint64(ns), ctypes.c_uint64(reading))

    def time(self, clock, reading):
        """Returns a clock's time, in ns."""
        return self.calls.kernel_time(clock, ctypes.c_uint64(reading))

    def tick_length(self):
        """Returns the length of a tick, in 2^-32 ns."""
        return self.calls.kernel_tick_length()

    def reftime(self):
        """Returns the second of the last offset."""
        return self.calls.kernel_reftime()

    def leap_at(self):
        """Returns the second at which a leap is due: far away if none is."""
        return self.calls.kernel_leap_at()
