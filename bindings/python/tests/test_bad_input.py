# SPDX-License-Identifier: MIT OR Apache-2.0
"""Bad buffers, numbers out of range and other versions: each gives an exception of this package
with the value and its range."""
import ctypes
import os
import shutil
import subprocess
import sys
import tempfile
import threading
import time
import unittest
from array import array
from pathlib import Path

import tkcore
from support import commanded, nanosecond_counter, opened
from tkcore import ClockId, NANOS

try:
    import numpy
except ImportError:
    numpy = None

STAMPS = array("Q", [9000, 9100, 9200])
TIMES = [7000, 7100, 7200]
OTHER = """
unsigned tkc_version(void) {{ return {}; }}
void tkcp_layout(unsigned long *layout) {{ layout[0] = {}; }}
"""
BIG_ENDIAN = ctypes.c_uint64.__ctype_be__ * 3


class Buffers(unittest.TestCase):
    def setUp(self):
        self.snapshot = commanded().snapshot()

    def convert(self, stamps, *out):
        return self.snapshot.convert(stamps, ClockId.MONOTONIC, *out)

    def test_any_buffer_of_unsigned_64_bits(self):
        as_bytes = STAMPS.tobytes()
        for stamps in (STAMPS, memoryview(STAMPS), memoryview(as_bytes).cast("Q"),
                       memoryview(as_bytes).cast("L"), memoryview(bytearray(as_bytes)).cast("Q")):
            self.assertEqual(list(self.convert(stamps)), TIMES)
        out = memoryview(bytearray(24)).cast("Q")
        self.assertIs(self.convert(STAMPS, out), out)
        self.assertEqual(list(out), TIMES)
        self.assertEqual(list(self.convert(array("Q"))), [])

    def test_no_other_buffer(self):
        for stamps in (STAMPS.tolist(), 5, None, "text", STAMPS.tobytes(), array("q", [1, 2]),
                       array("I", [1, 2]), array("d", [1.0]), memoryview(STAMPS)[::2]):
            with self.assertRaises(tkcore.BadBuffer, msg=stamps):
                self.convert(stamps)
            if stamps is not None:
                with self.assertRaises(tkcore.BadBuffer, msg=stamps):
                    self.convert(STAMPS, stamps)

    def test_another_type_or_order(self):
        for other, layout in ((array("q", [-1, 2, 3]), "q"), (array("I", [1, 2, 3]), "I"),
                              (array("d", [1.0, 2.0, 3.0]), "d"), (b"12345678", "B"),
                              (BIG_ENDIAN(1, 2, 3), memoryview(BIG_ENDIAN()).format)):
            for arguments, name in (((other,), "stamps"), ((STAMPS, other), "out")):
                if isinstance(other, bytes) and name == "out":
                    continue  # (it is read-only)
                with self.assertRaises(tkcore.BadBuffer) as raised:
                    self.convert(*arguments)
                self.assertEqual((raised.exception.value, raised.exception.range),
                                 (layout, ("Q", "Q")))
                self.assertEqual(str(raised.exception), f"the format of the elements of {name} is "
                                                        f"{layout} instead of Q")

    def test_no_read_only_memory_is_written(self):
        for out in (memoryview(STAMPS.tobytes()).cast("Q"),
                    memoryview(array("Q", [1, 2, 3])).toreadonly()):
            with self.assertRaisesRegex(tkcore.BadBuffer, "read-only"):
                self.convert(STAMPS, out)

    def test_no_overlap(self):
        both = memoryview(array("Q", [9000, 9100, 9200, 9300]))
        for out in (both[:3], both[1:]):
            with self.assertRaisesRegex(tkcore.BadBuffer, "overlaps"):
                self.convert(both[:3], out)
        self.assertEqual(list(self.convert(both[:2], both[2:])), TIMES[:2])

    def test_a_smaller_output(self):
        with self.assertRaises(tkcore.BadRoom) as raised:
            self.convert(STAMPS, array("Q", [7, 7]))
        self.assertEqual((raised.exception.value, raised.exception.range[0]), (2, 3))

    def test_a_stamp_that_is_too_large(self):
        for stamp in (2**32, 2**64 - 1):
            out = array("Q", [7, 7, 7])
            with self.assertRaises(tkcore.Invalid) as raised:
                self.convert(array("Q", [9000, stamp, 9100]), out)
            found = raised.exception
            self.assertEqual((found.value, found.range, found.done), (stamp, (0, 2**32 - 1), 1))
            self.assertEqual(list(out), [7000, 7, 7])

    @unittest.skipUnless(numpy, "no numpy")
    def test_arrays_of_numpy(self):
        stamps = numpy.array([9000, 9100, 9200, 9300], numpy.uint64)
        found = self.convert(stamps)
        self.assertEqual((found.dtype, found.tolist()), (numpy.uint64, TIMES + [7300]))
        self.assertEqual(self.convert(stamps.reshape(2, 2)).tolist(), [TIMES[:2], [7200, 7300]])
        dates = self.snapshot.convert_datetime64(stamps, ClockId.REALTIME)
        self.assertEqual(str(dates[1]), "2027-01-15T08:00:01.000005109")
        self.assertEqual(self.snapshot.get_datetime64(9100, ClockId.REALTIME), dates[1])
        room = numpy.zeros(4, "datetime64[ns]")
        self.snapshot.convert_datetime64(stamps, ClockId.REALTIME, room)
        self.assertEqual(room.tolist(), dates.tolist())
        self.assertEqual(list(self.convert(numpy.uint64(9100))), [7100])
        self.assertEqual(self.convert(numpy.array(9100, numpy.uint64)).tolist(), 7100)
        for bad in (numpy.uint64(2**32), numpy.array(2**32, numpy.uint64)):
            with self.assertRaises(tkcore.Invalid):
                self.convert(bad)
        self.assertEqual(self.convert(numpy.empty((0, 3), numpy.uint64)).shape, (0, 3))
        frozen = numpy.zeros(4, numpy.uint64)
        frozen.flags.writeable = False
        grid = numpy.array([[1, 2], [3, 4]], numpy.uint64)
        for bad in (stamps.astype(">u8"), stamps.astype(numpy.int64), stamps[::2], grid.T,
                    stamps.astype(object), dates):
            with self.assertRaises(tkcore.BadBuffer, msg=bad.dtype):
                self.convert(bad)
        with self.assertRaisesRegex(tkcore.BadBuffer, "read-only"):
            self.convert(stamps, frozen)
        self.assertEqual(self.convert(frozen).tolist(), [7000] * 4)

    def test_other_threads_run_during_a_conversion(self):
        stamps = array("Q", [9000]) * 4_000_000
        out = array("Q", stamps)
        ended, rounds, interval = [], 0, sys.getswitchinterval()

        def work():
            for _ in range(10):
                self.convert(stamps, out)
            ended.append(True)

        sys.setswitchinterval(10)
        try:
            worker = threading.Thread(target=work)
            worker.start()
            while not ended:
                rounds += 1
                time.sleep(0)
            worker.join()
        finally:
            sys.setswitchinterval(interval)
        self.assertGreater(rounds, 50)


class Numbers(unittest.TestCase):
    def refused(self, error, value, within, call, *arguments):
        with self.assertRaises(error, msg=arguments) as raised:
            call(*arguments)
        self.assertEqual((raised.exception.value, raised.exception.range), (value, within))

    def test_counters(self):
        for bits in (-1, 7, 65, 2**32 + 32, 2**64):
            self.refused(tkcore.BadBits, bits, (8, 64), tkcore.Counter, bits, 2**24, 24)
            self.refused(tkcore.BadBits, bits, (8, 64), tkcore.Counter.from_hz, bits, 10, 1)
        for shift in (-1, 33, 2**32):
            self.refused(tkcore.BadShift, shift, (0, 32), tkcore.Counter, 32, 2**24, shift)
        for mult in (-1, 255, 2**32):
            self.refused(tkcore.BadMult, mult, (256, 3_869_339_906), tkcore.Counter, 32, mult, 24)
        for rate in (-1, 0, 2**32, 2**64):
            self.refused(tkcore.BadRate, rate, (1, 2**32 - 1), tkcore.Counter.from_khz, 32, rate, 1)
        for span in (-1, 0, 601, 2**32):
            self.refused(tkcore.BadRate, span, (1, 600), tkcore.Counter.from_hz, 32, 10, span)

    def test_commands(self):
        clock, readings = opened(), (0, 2**32 - 1)
        for reading in (-1, 2**32, 2**64):
            self.refused(tkcore.Invalid, reading, readings, clock.update, reading)
            self.refused(tkcore.Invalid, reading, readings, clock.snapshot().get, reading, 0)
            self.refused(tkcore.Invalid, reading, readings, tkcore.Clock, clock.counter, reading, 0)
        for tick in (8999, 11_001, 2**63 - 1):
            self.refused(tkcore.Invalid, tick, (9000, 11_000), clock.set_tick, 5, tick)
        latest = 8_277_292_036 * NANOS - 1
        self.refused(tkcore.Invalid, -1, (0, latest), clock.set_time, 5, -1)
        # (at 5 ns of MONOTONIC, and of REALTIME after 1700000000 s)
        self.refused(tkcore.Invalid, 4, (5, latest), clock.set_time, 5, 4)
        within = (-1_700_000_000 * NANOS, latest - 1_700_000_000 * NANOS - 5)
        for amount in (within[0] - 1, within[1] + 1, -2**62, 2**63 - 1):
            self.refused(tkcore.Invalid, amount, within, clock.step, 5, amount)
        for amount in within:
            opened().step(5, amount)
        self.refused(tkcore.Invalid, -1, (0, 100_000), clock.set_tai_offset, 5, -1)
        clock.update(1000)
        self.refused(tkcore.Behind, 999, (1000, 1000 + 2**31 - 1), clock.update, 999)
        for number in (9, -1, 2**32):
            self.refused(tkcore.BadCommand, number, (0, 8), clock.apply, 2000, number)
        for other in (1.5, "5", None):
            with self.assertRaises(TypeError):
                clock.update(other)

    def test_leaps(self):
        for clock in (opened(), tkcore.SteeredClock(nanosecond_counter(), 0, 10**18)):
            before = clock.snapshot()
            for by in (-2**63, -2, 2, 2**63 - 1):
                self.refused(tkcore.Invalid, by, (-1, 1), clock.leap, 0, by, 37)
            self.refused(tkcore.Invalid, 0, (1, 1), clock.leap, 0, 0, 37)
            for tai in (-1, 100_001, 2**32 - 1, 2**32):
                self.refused(tkcore.Invalid, tai, (0, 100_000), clock.leap, 0, -1, tai)
            self.assertEqual(clock.snapshot().words()[1:], before.words()[1:])
        # (REALTIME is 0 s, and may not be below MONOTONIC)
        latest = 8_277_292_036 * NANOS - 1
        clock = tkcore.Clock(nanosecond_counter(), 0, 0)
        self.refused(tkcore.Invalid, -NANOS, (0, latest), clock.leap, 0, -1, 1)
        clock = tkcore.Clock(nanosecond_counter(), 0, latest)
        self.refused(tkcore.Invalid, NANOS, (-latest, 0), clock.leap, 0, 1, 1)


class Versions(unittest.TestCase):
    def imports(self, library):
        code = ("try:\n import tkcore\n"
                "except ImportError as other:\n print(type(other).__name__, other)")
        return subprocess.run([sys.executable, "-c", code], capture_output=True, text=True,
                              env=dict(os.environ, TKCORE_LIBRARY=str(library)), check=True).stdout

    @unittest.skipUnless(shutil.which("cc"), "no C compiler")
    def test_a_library_of_another_version(self):
        with tempfile.TemporaryDirectory() as folder:
            source, library = Path(folder, "other.c"), Path(folder, "other.so")
            for text, reason in (
                    (OTHER.format(0x200, 0x200), "the version of .* is 0.2.0 instead of 0.3.0 to"),
                    (OTHER.format(0x300, 0x200), "the version of the headers of .* is 0.2.0 in"),
                    (OTHER.format(0x300, 0x300), r"the list of sizes and layouts of .* is \[0, 0"),
                    ("int nothing;", ".* isn't the shared object of this package")):
                source.write_text(text)
                subprocess.run(["cc", "-shared", "-fPIC", source, "-o", library], check=True)
                self.assertRegex(self.imports(library), f"^OtherVersion {reason}")
            self.assertRegex(self.imports(Path(folder, "none.so")), "^ImportError ")


if __name__ == "__main__":
    unittest.main()
