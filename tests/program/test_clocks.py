"""What commands and reads give, at values that were worked out manually."""
from program import OPENING, Case, run

# the counter of OPENING, opened 6 cycles before it wraps
NEAR_ITS_END = "open,32,16777216,24,4294967290,1700000000,0\n"
# a counter of 4,194,304 ns a cycle with readings of 64 bits; and the latest time that may be set
WIDE = "open,64,4194304,0,0,1700000000,0\n"
WIDE_AND_LATE = "open,64,4194304,0,0,8277292035,999999999\n"

CLOCKS = ["realtime", "monotonic", "boottime", "tai", "realtime_coarse", "monotonic_coarse",
          "monotonic_raw"]
# reads of each clock: at both ends and at half of 32 bits, and after the end of MONOTONIC in WIDE
READS = [f"get,{reading},{clock}" for clock in CLOCKS
         for reading in [0, 1, 2_147_483_647, 2_147_483_648, 4_294_967_295, 225_563_049_400]]


def joined(lines):
    return "".join(f"{it}\n" for it in lines)


class Clocks(Case):
    """Tables of records, each with its line."""

    def check_rows(self, rows, opening=OPENING):
        """After this opening each record gives its line, and refused commands change nothing."""
        opened = opening.strip(), ",".join(opening.split(",")[:4])
        records, lines = zip(opened, *(row.split() for row in rows.splitlines()))
        for words in [[], ["replay", "--keep", "1"]]:
            with self.subTest(words=words):
                self.check_text(joined(lines), *words, given=joined(records))
        self.check_refusals(records)

    def check_refusals(self, records):
        """Without the refused commands the other records, and reads after each, give the same."""
        asked = [it for record in records for it in (record, *READS)]
        lines = run(given=joined(asked)).text.splitlines()
        kept = [(record, line) for record, line in zip(asked, lines, strict=True)
                if record.startswith("get,") or not line.startswith("no,")]
        records, lines = zip(*kept)
        self.check_text(joined(lines), given=joined(records))

    def test_half_the_range_leads_forward_and_one_more_leads_back(self):
        self.check_rows("""\
get,2147483648,monotonic  at,monotonic,0.000000000
update,2147483648         no,behind
get,2147483648,monotonic  at,monotonic,0.000000000
update,2147483647         ok,1,2.147483647
get,2147483647,monotonic  at,monotonic,2.147483647
get,2147483648,monotonic  at,monotonic,2.147483648
update,0                  no,behind
""")

    def test_the_counter_wraps_between_two_commands(self):
        self.check_rows("""\
update,10         ok,1,0.000000016
get,10,monotonic  at,monotonic,0.000000016
""", NEAR_ITS_END)

    def test_a_reading_behind_and_a_coarse_clock_get_the_last_value(self):
        self.check_rows("""\
update,100                ok,1,0.000000100
get,99,monotonic          at,monotonic,0.000000100
get,150,monotonic_coarse  at,monotonic_coarse,0.000000100
get,150,realtime_coarse   at,realtime_coarse,1700000000.000000100,2023-11-14T22:13:20.000000100Z
get,150,realtime          at,realtime,1700000000.000000150,2023-11-14T22:13:20.000000150Z
""")

    def test_the_first_failed_test_is_returned(self):
        # at reading 99 a time too late to be set, which is behind too; then one below MONOTONIC
        self.check_rows("""\
update,4294967296    no,invalid
update,100           ok,1,0.000000100
set,99,8277292036,0  no,invalid
set,99,0,0           no,behind
set,100,0,0          no,invalid
""")

    def test_no_clock_is_read_above_the_mask(self):
        self.check_rows(joined(f"get,4294967296,{clock} no,invalid" for clock in CLOCKS))

    def test_a_clock_is_not_read_at_its_limit(self):
        self.check_rows("""\
get,9223372036854775807,monotonic  no,range
get,225563049317,monotonic         no,range
get,225563049316,monotonic         at,monotonic,946079999.998296064
""", WIDE)

    def test_monotonic_ends_after_thirty_years(self):
        self.check_rows("""\
update,9223372036854775807  no,range
update,225563049317         no,range
update,225563049316         ok,1,946079999.998296064
get,225563049316,monotonic  at,monotonic,946079999.998296064
""", WIDE)

    def test_tai_reaches_its_limit_before_realtime(self):
        self.check_rows("""\
update,9223372036854775807  no,range
update,225563049317         no,range
update,225563049316         ok,1,946079999.998296064
get,225563049316,realtime   at,realtime,9223372035.998296063,2262-04-11T23:47:15.998296063Z
tai,225563049316,1          no,range
tai,225563049316,0          ok,2,946079999.998296064
get,225563049316,monotonic  at,monotonic,946079999.998296064
get,225563049316,realtime   at,realtime,9223372035.998296063,2262-04-11T23:47:15.998296063Z
""", WIDE_AND_LATE)

    def test_realtime_is_set_to_monotonic_or_later(self):
        self.check_rows("""\
set,2000000000,2,0          ok,1,2.000000000
get,2000000000,realtime     at,realtime,2.000000000,1970-01-01T00:00:02.000000000Z
set,2000000000,1,999999999  no,invalid
get,2000000000,realtime     at,realtime,2.000000000,1970-01-01T00:00:02.000000000Z
""")

    def test_a_settable_time_leaves_room_for_thirty_years(self):
        self.check_rows("""\
set,0,8277292035,999999999  ok,1,0.000000000
get,0,realtime              at,realtime,8277292035.999999999,2232-04-18T23:47:15.999999999Z
set,0,8277292036,0          no,invalid
set,0,-1,999999999          no,invalid
set,0,0,1000000000          no,invalid
""")

    def test_the_nanoseconds_of_a_step_count_upwards(self):
        self.check_rows("""\
step,0,-1,999999999  ok,1,0.000000000
get,0,realtime       at,realtime,1699999999.999999999,2023-11-14T22:13:19.999999999Z
""")

    def test_a_step_stays_between_monotonic_and_the_settable_times(self):
        self.check_rows("""\
set,0,8277292035,999999999     ok,1,0.000000000
set,0,8277292036,0             no,invalid
step,0,0,1                     no,invalid
step,0,-8277292035,0           ok,2,0.000000000
step,0,-1,0                    no,invalid
step,0,0,1000000000            no,invalid
step,0,-9223372036854775808,0  no,invalid
get,0,realtime                 at,realtime,0.999999999,1970-01-01T00:00:00.999999999Z
""")

    def test_a_tai_offset_is_of_0_to_100000_seconds(self):
        self.check_rows("""\
tai,0,37      ok,1,0.000000000
tai,0,100001  no,invalid
tai,0,-1      no,invalid
get,0,tai     at,tai,1700000037.000000000
""")

    def test_a_frequency_holds_from_its_reading_on(self):
        # a cycle lasts 16,785,604 / 2^24 ns, and then 16,768,827 / 2^24 ns: in 10^9 cycles of each
        # MONOTONIC moves on by 33,554,431 / 2^24 s
        self.check_rows("""\
freq,0,65536000            ok,1,0.000000000
get,1000000000,monotonic   at,monotonic,1.000499963
freq,1000000000,-32768000  ok,2,1.000499963
get,1000000000,monotonic   at,monotonic,1.000499963
get,1000000001,monotonic   at,monotonic,1.000499964
get,2000000000,monotonic   at,monotonic,1.999999940
""")

    def test_any_frequency_is_held_to_500_ppm(self):
        # 10^9 cycles of 16,768,827 / 2^24 ns, and of 16,785,604 / 2^24 ns
        self.check_rows("""\
freq,0,-9223372036854775808  ok,1,0.000000000
get,1000000000,monotonic     at,monotonic,0.999499976
freq,0,9223372036854775807   ok,2,0.000000000
get,1000000000,monotonic     at,monotonic,1.000499963
""")

    def test_a_tick_is_of_9_to_11_milliseconds(self):
        self.check_rows("""\
tick,0,8999   no,invalid
tick,0,11001  no,invalid
tick,0,9000   ok,1,0.000000000
tick,0,11000  ok,2,0.000000000
""")

    def test_asleep_every_read_stands_still(self):
        self.check_rows("""\
suspend,1000            ok,1,0.000001000
get,2000,monotonic      at,monotonic,0.000001000
get,2000,monotonic_raw  at,monotonic_raw,0.000001000
get,2000,realtime       at,realtime,1700000000.000001000,2023-11-14T22:13:20.000001000Z
""")

    def test_only_a_sleeping_clock_resumes(self):
        self.check_rows("""\
resume,0,0,0           no,awake
suspend,0              ok,1,0.000000000
resume,0,0,1000000000  no,invalid
update,4294967296      no,asleep
resume,0,0,1           ok,2,0.000000000
get,0,boottime         at,boottime,0.000000001
""")

    def test_a_long_suspension_takes_realtime_to_its_limit(self):
        self.check_rows("""\
suspend,0                      ok,1,0.000000000
resume,0,7523372036,0          no,range
resume,0,7523372035,999999999  ok,2,0.000000000
update,1                       no,range
tai,0,1                        no,range
step,0,0,0                     no,invalid
set,1,100,0                    ok,3,0.000000001
""")

    def test_a_full_journal_refuses_every_command(self):
        ended = run(given=OPENING + "update,0\n" * 1_048_575 + """\
suspend,0
resume,0,0,0
update,4294967296
get,5,monotonic
""")
        numbers = joined(f"ok,{it},0.000000000" for it in range(1, 1_048_577))
        text = f"open,32,16777216,24\n{numbers}no,full\nno,full\nat,monotonic,0.000000000\n"
        self.assertEqual((0, ""), (ended.status, ended.error))
        self.assertTrue(ended.text == text)
