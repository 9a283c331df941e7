# SPDX-License-Identifier: MIT OR Apache-2.0
"""Journals against the definitions in Python, on the stored trace of perf and on small scripts."""
import unittest
from array import array

import tkcore
from support import ROOT
from tkcore import ClockId, Journal

import model

PERF = ROOT / "tests" / "perf"
SCRIPT = ["open,64,16777216,24,100,1700000000,0", "update,200", "step,300,-1,5", "get,350,tai",
          "suspend,400", "resume,500,7,0"]


class Scripts(unittest.TestCase):
    def test_the_stored_trace(self):
        script, items = (PERF / "record.csv").read_bytes(), (PERF / "record.stamps").read_bytes()
        stamps = array("Q", sorted(stamp for _, stamp in model.items_of(items)))
        journal = Journal.from_script(script.decode().splitlines())
        for clock in ("realtime", "monotonic", "tai"):
            wanted = sorted(map(int, model.trace(clock, script, items)))
            times = journal.convert(stamps, ClockId[clock.upper()], array("Q", stamps))
            self.assertEqual(sorted(times), wanted)
            reads = [journal.get(stamp, ClockId[clock.upper()]) for stamp in stamps]
            self.assertEqual(reads, list(times))

    def test_a_stamp_at_a_command_comes_after_it(self):
        journal = Journal.from_script(SCRIPT)
        self.assertEqual(list(journal.readings), [100, 200, 300, 400, 500])
        for reading, front in ((100, 0), (199, 0), (200, 1), (299, 1), (300, 2), (499, 3),
                               (500, 4)):
            self.assertEqual(journal.snapshot_at(reading).words()[0], front)

    def test_a_change_of_counter(self):
        """The journal begins anew at a change: stamps are readings of the last counter, as in
        `tkcore trace`."""
        lines = SCRIPT + ["counter,600,32,8388608,23,50", "tai,70,37", "step,80,-1,0",
                          "counter,90,56,3000000,20,1000", "freq,2000,655360"]
        stamps = array("Q", range(1000, 5000, 7))
        items = "".join(f"{8 + (stamp >= 2000)},{stamp}\n" for stamp in stamps).encode()
        script = "".join(f"{line}\n" for line in lines).encode()
        journal = Journal.from_script(lines)
        self.assertEqual(list(journal.readings), [1000, 2000])
        for clock in ("realtime", "monotonic", "boottime", "tai"):
            wanted = list(map(int, model.trace(clock, script, items)))
            found = journal.convert(stamps, ClockId[clock.upper()], array("Q", stamps))
            self.assertEqual(list(found), wanted)
        for reading in (999, 90):
            with self.assertRaises(tkcore.Invalid) as raised:
                journal.get(reading, ClockId.TAI)
            self.assertEqual((raised.exception.value, raised.exception.range),
                             (reading, (1000, 2**56 - 1)))

    def test_no_change_of_counter(self):
        for line, error, value in (("counter,600,65,8388608,23,50", tkcore.BadBits, 65),
                                   ("counter,600,32,8388608,33,50", tkcore.BadShift, 33),
                                   (f"counter,600,32,8388608,23,{2**32}", tkcore.Invalid, 2**32),
                                   ("counter,499,32,8388608,23,50", tkcore.Behind, 499)):
            with self.assertRaises(error) as raised:
                Journal.from_script(SCRIPT + [line])
            self.assertEqual(raised.exception.value, value)
        for line in ("counter,600,32,8388608,23", "counter,600,32,8388608,23,50,1", "counter"):
            with self.assertRaisesRegex(ValueError, "record 7 is no record of a script: counter"):
                Journal.from_script(SCRIPT + [line])

    def test_what_is_no_script(self):
        for lines in ([], ["update,5"], SCRIPT[:1] * 2, SCRIPT[:1] + ["jump,5"],
                      SCRIPT[:1] + ["step,200,1"], SCRIPT[:1] + ["update,x"]):
            with self.assertRaises(ValueError, msg=lines):
                Journal.from_script(lines)
        for line, error in (("update,150", tkcore.Invalid), ("resume,600,1,0", tkcore.Awake),
                            ("tick,600,5", tkcore.Invalid)):
            with self.assertRaises(error):
                Journal.from_script(SCRIPT + [line])
        with self.assertRaises(tkcore.BadBits):
            Journal.from_script(["open,65,16777216,24,100,1700000000,0"])

    def test_stamps_that_go_down_or_are_before_the_opening(self):
        journal, out = Journal.from_script(SCRIPT), array("Q", [0, 0])
        with self.assertRaises(ValueError):
            journal.convert(array("Q", [300, 299]), ClockId.TAI, out)
        with self.assertRaises(tkcore.Invalid) as raised:
            journal.convert(array("Q", [99, 300]), ClockId.TAI, out)
        self.assertEqual((raised.exception.value, raised.exception.range), (99, (100, 2**64 - 1)))


if __name__ == "__main__":
    unittest.main()
