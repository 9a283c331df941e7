"""Traces of a script and a stamp file, and the faults of both."""
from program import DONE, OPENING, SHORT, SHORT_FAULT, Case, run

# two settings of the frequency
STEERED = OPENING + "freq,0,65536000\nfreq,1000000000,-32768000\n"

# stamps as of the opening, the first setting and both, and MONOTONIC at these
STAMPS = "0,1000000000\n1,1000000000\n2,1000000001\n"
TRACE = "1000000000\n1000499963\n1000499964\n"

LARGE = "\n" * 16_777_217


class Traces(Case):
    def check_trace(self, clock, script, stamps, text):
        self.check_text(text, "trace", clock, "a", "b", files={"a": script, "b": stamps})

    def check_fault(self, script, stamps, fault):
        with self.subTest(stamps=stamps[:40], fault=fault):
            self.check_error(fault, "trace", "monotonic", "a", "b",
                             files={"a": script, "b": stamps})

    def test_each_stamp_is_converted_as_of_its_front(self):
        self.check_trace("monotonic", STEERED, STAMPS, TRACE)
        self.check_text(TRACE, "trace", "monotonic", "b", "a", files={"b": STEERED, "a": STAMPS})

    def test_fronts_may_go_up_and_down(self):
        self.check_trace("monotonic", STEERED, """\
2,1000000001
0,1000000000
2,1000000001
1,1000000000
1,1000000000
0,7
""", "1000499964\n1000000000\n1000499964\n1000499963\n1000499963\n7\n")

    def test_refused_commands_and_reads_count_for_no_front(self):
        script = OPENING + """\
update,4294967296
get,5,monotonic
freq,0,65536000
resume,0,0,0
get,4294967296,tai
freq,1000000000,-32768000
"""
        self.check_trace("monotonic", script, STAMPS, TRACE)
        self.check_fault(script, "3,0\n", "item 0: unknown front")

    def test_the_clock_that_is_asked_for_is_read(self):
        script = OPENING + "tai,1000,37\nsuspend,1000\nresume,5,5,500000000\n"
        at_1700000000 = 1_700_000_000 * 10**9
        for clock, values in [
                ("monotonic", [1000, 1000, 1000, 1010]),
                ("monotonic_raw", [1000, 1000, 1000, 1010]),
                ("monotonic_coarse", [0, 1000, 1000, 1000]),
                ("boottime", [1000, 1000, 1000, 5_500_001_010]),
                ("realtime", [at_1700000000 + it for it in [1000, 1000, 1000, 5_500_001_010]]),
                ("realtime_coarse", [at_1700000000 + it for it in [0, 1000, 1000, 5_500_001_000]]),
                ("tai", [at_1700000000 + it
                         for it in [1000, 37_000_001_000, 37_000_001_000, 42_500_001_010]])]:
            with self.subTest(clock=clock):
                self.check_trace(clock, script, "0,1000\n1,1000\n2,2000\n3,15\n",
                                 "".join(f"{it}\n" for it in values))

    def test_no_stamps_are_no_byte(self):
        for stamps in ["", "\n\r\n\n", LARGE[1:]]:
            self.check_trace("tai", STEERED, stamps, "")

    def test_the_first_item_with_a_fault_decides(self):
        unknown, above, high = "unknown front", "stamp above the mask", "value out of range"
        wide = "open,64,4194304,0,0,1700000000,0\nupdate,5\n"
        for script, stamps, fault in [
                (STEERED, STAMPS + "3,0\n", f"item 3: {unknown}"),
                (STEERED, "18446744073709551615,0\n", f"item 0: {unknown}"),
                (STEERED, "0,1\n2,4294967296\n9,0\n", f"item 1: {above}"),
                (STEERED, "0,1\n9,4294967296\n", f"item 1: {unknown}"),
                (STEERED, "0,4294967296\n3,0\n", f"item 0: {above}"),
                (STEERED, "0,18446744073709551615\n", f"item 0: {above}"),
                (wide, "0,1\n0,225563049317\n", f"item 1: {high}"),
                (wide, "1,1\n0,5\n1,9223372036854775807\n2,0\n", f"item 2: {high}")]:
            self.check_fault(script, stamps, fault)

    def test_the_stamp_file_has_the_first_fault_of_its_records(self):
        fields, number = "wrong number of fields", "not a number in range"
        for stamps, fault in [
                ("1", f"record 1: {fields}"), ("1,-1", f"record 1: {number}"),
                ("0,1000000000\n1,1000000000\n2,", f"record 3: {number}"),
                ("0,1\n0,1,2\n", f"record 2: {fields}"), ("9,1\n+1,0\n", f"record 2: {number}"),
                ("18446744073709551616,0\n", f"record 1: {number}"),
                ("0,4294967296\nx,0\n1\n", f"record 2: {number}"),
                (STEERED, f"record 1: {fields}"), (LARGE, "larger than 16777216 bytes")]:
            self.check_fault(STEERED, stamps, f"stamps: {fault}")

    def test_the_script_is_judged_before_the_stamps(self):
        for script, fault in [("", "no record"), ("update,0\n", "record 1: not a valid opening"),
                              (SHORT, SHORT_FAULT), (LARGE, "larger than 16777216 bytes")]:
            for stamps in [STAMPS, "1", "9,0\n", LARGE]:
                self.check_fault(script, stamps, f"script: {fault}")

    def test_a_file_that_is_missing_cannot_be_read(self):
        for files in [{}, {"a": "no script"}, {"b": "no stamps"}]:
            self.check_error("cannot read", "trace", "monotonic", "a", "b", files=files)

    def test_a_full_journal_has_no_later_front(self):
        script = OPENING + "update,0\n" * 1_048_577
        self.check_trace("monotonic", script, "1048576,7\n1048575,8\n", "7\n8\n")
        self.check_fault(script, "1048576,7\n1048577,7\n", "item 1: unknown front")


class LongTraces(Case):
    """Traces that are long enough to be shared out among threads."""

    # three steps of REALTIME, and REALTIME less the stamp as of each front
    STEPPED = OPENING + "step,0,1,0\nstep,0,2,0\nstep,0,4,0\n"
    OFFSETS = [(1_700_000_000 + it) * 10**9 for it in [0, 1, 3, 7]]
    # four whole pieces, and a last one of one stamp; and the cycles from a stamp to the next
    MANY, GAP = 262_145, 8_001

    def traced(self, unknown, above):
        """A trace of fronts that go up and down. These items have a front that the script doesn't
        know, and a stamp above the mask."""
        stamps = [(it % 4, it * self.GAP) for it in range(self.MANY)]
        if unknown is not None:
            stamps[unknown] = 4, stamps[unknown][1]
        if above is not None:
            stamps[above] = stamps[above][0], 4_294_967_296
        lines = "".join(f"{front},{stamp}\n" for front, stamp in stamps)
        return run("trace", "realtime", "a", "b", files={"a": self.STEPPED, "b": lines})

    def test_stamps_of_many_pieces_have_their_values_in_order(self):
        values = [self.OFFSETS[it % 4] + it * self.GAP for it in range(self.MANY)]
        ended = self.traced(None, None)
        self.assertTrue(ended.text == "".join(f"{it}\n" for it in values))
        self.assertEqual((0, ""), (ended.status, ended.error))

    def test_the_first_fault_of_many_pieces_decides(self):
        for unknown, above, fault in [(200_000, 250_000, "item 200000: unknown front"),
                                      (262_144, None, "item 262144: unknown front"),
                                      (None, 131_072, "item 131072: stamp above the mask"),
                                      (65_536, 65_535, "item 65535: stamp above the mask")]:
            ended = self.traced(unknown, above)
            self.assertEqual((1, fault, ""), (ended.status, ended.error, ended.text))

    def test_stamps_are_traced_by_the_million(self):
        stamps = range(1_048_576)
        ended = run("trace", "monotonic", "a", "b", files={
            "a": OPENING, "b": "".join(f"0,{it}\n" for it in stamps)})
        self.assertTrue(ended.text == "".join(f"{it}\n" for it in stamps))
        self.assertEqual((DONE.status, DONE.error), (ended.status, ended.error))
