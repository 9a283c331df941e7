"""Texts that are scripts and stamp files, and texts that are not."""
from program import OPENING, Case, Ending, run

LIMIT = 16_777_216

INVALID = "record 1: not a valid opening"
LARGE = f"larger than {LIMIT} bytes"


def fields(record):
    return f"record {record}: wrong number of fields"


def number(record):
    return f"record {record}: not a number in range"


def word(record):
    return f"record {record}: unknown word"


class Faults(Case):
    """Each subcommand reads a script in the same way, and so has the same fault."""

    def check_fault(self, script, fault, of_all=True):
        with self.subTest(script=script[:60], fault=fault):
            self.check_error(f"script: {fault}", given=script)
            if not of_all:
                return
            files = {"a": script, "b": ""}
            self.check_error(f"script: {fault}", "replay", "--keep", "1", given=script)
            self.check_error(f"script: {fault}", "trace", "tai", "a", "b", files=files)
            self.check_error(f"file 0: {fault}", "race", "0", "a", files=files)
            self.assertEqual(Ending(1, "", f"file,0\nfault,{fault}\n"),
                             run("many", "1", "a", files=files))

    def test_the_first_record_is_an_opening(self):
        for script, fault in [
                (b"", "no record"), (b"\n\r\n", "no record"), (b"update,0", INVALID),
                (b"get,0,monotonic", INVALID), (b"openhz,7,24000000,600,0,0,0", INVALID),
                (b"openhz,32,0,600,0,0,0", INVALID), (b"openhz,32,24000000,0,0,0,0", INVALID),
                (b"openhz,32,24000000,601,0,0,0", INVALID), (b'"', INVALID), (b'""', INVALID),
                (b"\xff", INVALID), (b'"open,32,16777216,24,0,1700000000,0', INVALID),
                (b"open,7,16777216,24,0,1700000000,0", INVALID),
                (b"open,32,16777216,24,4294967296,1700000000,0", INVALID),
                (b"open,32,16777216,24,0,8277292036,0", INVALID),
                (b"open,32,16777216,24,0,-1,0", INVALID),
                (b"open,32,16777216,24,0,0,1000000000", INVALID),
                (b"\xffopen,32,16777216,24,0,1700000000,0", INVALID), (b"\0", INVALID),
                (b" open,32,16777216,24,0,1700000000,0", INVALID), (b'"update,0\n', INVALID),
                (b"open,32,16777216,24,0,1700000000", fields(1)),
                (b"open,32,4294967296,24,0,1700000000,0", number(1)),
                (b"open,32,16777216,24,0,9223372036854775808,0", number(1)),
                (b"open,7,16777216,24,0,1700000000,-0", number(1)),
                (b"open,32,16777216,24,0,1700000000,\xff", number(1)),
                (b"open,32,16777216,24,0,1700000000,\0", number(1))]:
            self.check_fault(script, fault)

    def test_an_opening_may_be_cut_anywhere(self):
        opening = OPENING.rstrip("\n")
        self.assertEqual(34, len(opening))
        for length in range(34):
            fault = ("no record" if length == 0 else INVALID if length < 4
                     else fields(1) if length < 33 else number(1))
            self.check_fault(opening[:length], fault)
        self.check_text("open,32,16777216,24\n", given=opening)

    def test_a_later_record_has_a_word_its_fields_and_their_numbers(self):
        for records, fault in [
                ("updat,0", word(2)), ("updat,0,0", word(2)), ("updates,0", word(2)),
                ("Update,0", word(2)), ("settime,0,0,0", word(2)), ("monotonic,0", word(2)),
                (OPENING, word(2)), ("openhz,32,24000000,600,0,0,0", word(2)), ('""', word(2)),
                ("update", fields(2)), ("update,1,1", fields(2)), ("set,5,7", fields(2)),
                ("step,5,7,0,0", fields(2)), ("freq,5", fields(2)), ("tick,5,10000,0", fields(2)),
                ("tai,5", fields(2)), ("suspend,5,0", fields(2)), ("resume,5,0", fields(2)),
                ("set,x,y", fields(2)), ("get,x", fields(2)), ("update, 1", number(2)),
                ("update,+1", number(2)), ("update,", number(2)),
                ("update,18446744073709551616", number(2)), ('update,"7\nget,1,foo', number(2)),
                ("set,0,-9223372036854775809,0", number(2)),
                ("set,0,9223372036854775808,0", number(2)), ("set,0,0,4294967296", number(2)),
                ("step,0,0,-1", number(2)), ("step,0,--1,0", number(2)),
                ("resume,0,+1,0", number(2)), ("freq,0,-", number(2)), ("freq,0,1.5", number(2)),
                ("tick,0,", number(2)), ("tai,-1,0", number(2)), ("suspend,-1", number(2)),
                ("get,x,foo", number(2)), ("get,1,foo", word(2)), ("update,1\nget,1,foo", word(3)),
                ("update\nfoo", fields(2)), ("update,1\n\n" * 1_000 + "update", fields(1_002))]:
            self.check_fault(OPENING + records, fault)

    def test_a_record_may_have_any_number_of_fields(self):
        for many in [15, 16, 17, 1_000, 100_000]:
            self.check_fault(OPENING + "update" + ",0" * many, fields(2))
            self.check_fault(OPENING + "updat" + ",0" * many, word(2))

    def test_a_script_is_refused_by_its_length(self):
        for text, fault in [("", "no record"), ("x\n", INVALID), (OPENING + '"update,0', word(2))]:
            full = text.ljust(LIMIT, "\n")
            self.check_fault(full, fault, of_all=False)
            self.check_fault(full + "\n", LARGE, of_all=False)
        self.check_fault("x\n" * (LIMIT // 2), INVALID, of_all=False)


class Ways(Case):
    """A text with a quote, a carriage return or a byte order mark is read by another parser than a
    text without. Both give the same."""

    SCRIPT = """\
open,8,256,0,0,0,0
update,5
get,7,tai
freq,9,-3
get,18446744073709551615,monotonic_raw
update,10000000000000000000
get,000000000000000000000003,realtime
"""
    # 256 ns a cycle; 3 is behind 9 on a counter of 8 bits
    REPORT = """\
open,8,256,0
ok,1,0.000001280
at,tai,0.000001792
ok,2,0.000002304
no,invalid
no,invalid
at,realtime,0.000002304,1970-01-01T00:00:00.000002304Z
"""

    def test_both_ways_give_the_same_commands(self):
        script = self.SCRIPT
        for text in [script, script.rstrip("\n"), "\n\n" + script.replace("\n", "\n\n"),
                     script.replace("tai", '"tai"'), script.replace("\n", "\r\n"),
                     script.replace("5\nget,7", "5\rget,7"), "\ufeff" + script]:
            with self.subTest(text=text[:60]):
                self.check_text(self.REPORT, given=text)

    def test_a_line_ends_in_each_way(self):
        opening = OPENING.rstrip("\n")
        for text in [f"{opening}\r\nupdate,7\r\n", f"{opening}\rupdate,7\r",
                     f'{opening}\n\n"update","7"', f'{opening}\nupdate,"7']:
            with self.subTest(text=text):
                self.check_text("open,32,16777216,24\nok,1,0.000000007\n", given=text)

    def test_both_ways_have_the_same_fault(self):
        first = b"open,8,256,0,0,0,0"
        for text, fault in [
                (b"", "no record"), (b"\n\n\n", "no record"), (b"open,8,256,0,0,0,\n", number(1)),
                (first + b",\n", number(1)), (first + b",1,\n", fields(1)),
                (b"\xefopen,8,256,0,0,0,0\n", INVALID),
                (b"\xef", INVALID), (first + b"\nupdate,5,", fields(2)),
                (first + b"\nupdate", fields(2)), (first + b"\nupdate,", number(2)),
                (first + b"\nupdate,5 \n", number(2)), (first + b"\n,update,5\n", word(2)),
                (first + b"\n,\n", word(2)), (first + b"\nupdates,5\n", word(2)),
                (first + b"\nget,5\n", fields(2)), (first + b"\nget,5,tai,\n", number(2)),
                (first + b"\nget,5,tai,1,\n", fields(2)), (first + b"\nget,5,tai,1,2\n", fields(2)),
                (first + b"\nget,5,\n", word(2)), (first + b"\nget,5,ta", word(2)),
                (first + b"\nget,5,\xef\xbb\xbf\n", word(2)),
                (first + b"\nget,x,tai\n", number(2)),
                (first + b"\nupdate,18446744073709551616\n", number(2)),
                (first + b"\nupdate,1\n\nupdate,2\nset,3,4,5,6,7,8,9,10,11,12,13\n", fields(4))]:
            # a carriage return before a line feed, or at the end, leaves the records unchanged
            for given in [text, text + b"\n\r\n"]:
                with self.subTest(given=given):
                    self.check_error(f"script: {fault}", given=given)

    def test_a_quote_within_a_field_is_a_byte(self):
        for text, fault in [('update,5"\nupdate,6', number(2)), ('get,5,t"ai\nupdate,6', word(2))]:
            self.check_error(f"script: {fault}", given=f"open,8,256,0,0,0,0\n{text}")


# the last reading of a counter of 64 bits, and a script of commands one cycle before it
LAST = 2**64 - 1
OFFSETS = "".join([f"open,64,16777216,24,{LAST - 1},0,0\n",
                   *(f"tai,{LAST - 1},{offset}\n" for offset in range(1, 8))])


class Stamps(Case):
    """Stamp files, by a script whose front f has f commands and a TAI offset of f seconds. Its
    counter is opened two cycles before it wraps."""

    def check_values(self, values, stamps):
        with self.subTest(stamps=stamps[:60]):
            self.check_text("".join(f"{it}\n" for it in values), "trace", "tai", "a", "b",
                            files={"a": OFFSETS, "b": stamps})

    def check_fault(self, stamps, fault):
        with self.subTest(stamps=stamps[:60]):
            self.check_error(fault, "trace", "tai", "a", "b",
                             files={"a": OFFSETS, "b": stamps})

    def test_both_ways_give_the_same_stamps(self):
        last = LAST
        for stamps in [f"0,1\n2,{last}\n4,000000000000000000005",
                       f"\n0,1\n\n2,{last}\n4,000000000000000000005\n\n",
                       f'0,1\n2,"{last}"\n4,000000000000000000005\n',
                       f"0,1\r\n2,{last}\r\n4,000000000000000000005\r\n",
                       f"\ufeff0,1\n2,{last}\n4,000000000000000000005\n"]:
            self.check_values([3, 2_000_000_001, 4_000_000_007], stamps)
        self.check_values([7_000_000_002, 11], '"007",0\r\n\r0,"9')
        self.check_values([3_000_000_007] * 100, "3,5\n" * 100)
        self.check_fault(f'"007",0\r\n\r{last},"9', "item 1: unknown front")

    def test_a_file_may_have_no_stamp(self):
        for stamps in ["", "\n\r\n", "\n" * LIMIT]:
            self.check_values([], stamps)
        self.check_fault("\n" * (LIMIT + 1), f"stamps: {LARGE}")

    def test_the_first_fault_of_the_records_decides(self):
        for stamps, fault in [
                (b"1", fields(1)), (b"x", fields(1)), (b"x,1,1", fields(1)), (b'""', fields(1)),
                (b"\xff", fields(1)), (b"1,-1", number(1)), (b"x,1", number(1)),
                (b"+1,1", number(1)), (b"1,18446744073709551616", number(1)),
                (b"1,2\n\n3,4\n5", fields(3)), (b"1,x\n1", number(1)), (b"1\n1,x", fields(1)),
                (b"0,1000000000\n1,1000000000\n2,", number(3)), (b"0,1\n2,3,\n", fields(2)),
                (b"0,1\r\n2,3,\n", fields(2)), (b"0,1\n2,\n", number(2)),
                (b'0,1\n"2",\n', number(2)), (b"\xef0,1\n", number(1)),
                (b"x\n" * (LIMIT // 2), fields(1))]:
            self.check_fault(stamps, f"stamps: {fault}")
