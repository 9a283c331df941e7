/* SPDX-License-Identifier: MIT OR Apache-2.0 */
/*
 * Seconds that begin late, the fronts of steered clocks, and ticks. The times are
 * computed from the equations of docs/NTP.md. The fronts are the numbers of
 * commands that tests/model/steered_clock.py gives its clocks.
 */
#include "worked_ntp.h"

/* Seconds that begin late, with an offset of -100 ms: the first at the reading
 * 500,000,000. With tkc_ntp_advance, MONOTONIC would be 39,065 ns less at the
 * reading 600,000,000. The last of the late calls begins three seconds. */
static const struct ntp_row late[] = {
	{ "openhz,64,1000000000,600,0,1700000000,500000000,250", "open" },
	{ "adjtimex,0,0x2035,-100000000,0,0,0,1,6,0,0,0",
	  "adj,ok,1700000000.500000000,-100000000,0,0,16000000,8193,6,10000,0" },
	{ "next", "next,500000000" },
	{ "late,600000000", "ok" },
	{ "get,1,600000000", "at,0.600000000" },
	{ "adjtimex,1000000000,0x0,0,0,0,0,0,0,0,0,0",
	  "adj,ok,1700000001.499828100,-99609375,0,500,16000000,8193,6,10000,0" },
	{ "next", "next,1500386941" },
	{ "late,1600000000", "ok" },
	{ "get,1,1600000000", "at,1.599570250" },
	{ "next", "next,2500780135" },
	{ "late,5000000000", "ok" },
	{ "get,1,5000000000", "at,4.998247718" },
	{ "adjtimex,5000000000,0x0,0,0,0,0,0,0,0,0,0",
	  "adj,ok,1700000005.498247718,-98062074,0,2500,16000000,8193,6,10000,0" },
	{ "adjtimex,10000000000,0x0,0,0,0,0,0,0,0,0,0",
	  "adj,ok,1700000010.496347152,-96161704,0,5000,16000000,8193,6,10000,0" },
	{ "next", "next,10503842886" },
};

/* A second is inserted 500 ns after midnight: the leap is the last command. */
static const struct ntp_row inserted_late[] = {
	{ "openhz,64,1000000000,600,0,1483228797,499000000,250", "open" },
	{ "adjtimex,0,0x94,0,0,0,0,16,36,0,0,0",
	  "adj,ok,1483228797.499000,0,0,0,16000000,16,2,10000,36" },
	{ "late,1000000000", "ok" },
	{ "late,2501000500", "ok" },
	{ "get,0,2501000500", "at,1483228799.000000500" },
	{ "get,11,2501000500", "at,1483228836.000000500" },
	{ "get,1,2501000500", "at,2.501000500" },
	{ "advance,2501000499", "no,TKC_BEHIND" },
	{ "next", "next,3501000000" },
	{ "adjtimex,3000000000,0x0,0,0,0,0,0,0,0,0,0",
	  "adj,oop,1483228799.499000,0,0,1500,16000000,16,2,10000,37" },
};

/* Refusals in their order. The reading after the last one that is refused as behind
 * is half of the counter's range ahead. */
static const struct ntp_row late_refused[] = {
	{ "openhz,32,1000000000,2,5,1700000000,0,250", "open" },
	{ "late,4294967296", "no,TKC_INVALID" },
	{ "late,4", "no,TKC_BEHIND" },
	{ "late,2147483653", "no,TKC_BEHIND" },
	{ "late,2147483652", "ok" },
	{ "apply,2147483652,6,0,0", "ok" },
	{ "late,4294967296", "no,TKC_ASLEEP" },
	{ "late,2147483651", "no,TKC_ASLEEP" },
	{ "apply,2147483652,7,0,0", "ok" },
	{ "late,2147483651", "no,TKC_BEHIND" },
	{ "late,2147483652", "ok" },
};

/* The front counts commands. Without a phase a second makes none, and requests that
 * change nothing don't either: a frequency, a tick and a TAI offset that are in force
 * already. With an offset each of three late seconds needs another frequency. A step
 * ends the phase, which needs one too. A request makes a step, a TAI offset and a rate
 * in one call. A refused command isn't counted. */
static const struct ntp_row fronts[] = {
	{ "openhz,64,1000000000,600,0,1700000000,500000000,250", "open" },
	{ "advance,499999999", "ok" },
	{ "advance,500000000", "ok" },
	{ "front", "front,0" },
	{ "apply,600000000,0,0,0", "ok" },
	{ "front", "front,1" },
	{ "adjtimex,600000000,0x0,0,0,0,0,0,0,0,0,0",
	  "adj,error,1700000001.100000,0,0,16000000,16000000,64,2,10000,0" },
	{ "front", "front,1" },
	{ "adjtimex,600000000,0x2035,100000000,0,0,0,1,6,0,0,0",
	  "adj,ok,1700000001.100000000,100000000,0,0,16000000,8193,6,10000,0" },
	{ "front", "front,1" },
	{ "get,0,1600000000", "at,1700000002.100039052" },
	{ "front", "front,2" },
	{ "late,4600000000", "ok" },
	{ "front", "front,5" },
	{ "apply,4600000000,3,6553600,0", "ok" },
	{ "front", "front,6" },
	{ "apply,4600000000,3,6553600,0", "ok" },
	{ "front", "front,6" },
	{ "apply,4600000000,4,10001,0", "ok" },
	{ "front", "front,7" },
	{ "adjtimex,4600000000,0x80,0,0,0,0,0,37,0,0,0",
	  "adj,ok,1700000005.101210641,98446631,6553600,2000,16000000,8193,6,10001,37" },
	{ "front", "front,8" },
	{ "adjtimex,4600000000,0x80,0,0,0,0,0,37,0,0,0",
	  "adj,ok,1700000005.101210641,98446631,6553600,2000,16000000,8193,6,10001,37" },
	{ "front", "front,8" },
	{ "adjtimex,4600000000,0x2100,0,0,0,0,0,0,0,-2,250000000",
	  "adj,error,1700000003.351210641,0,6553600,16000000,16000000,8257,6,10001,37" },
	{ "front", "front,10" },
	{ "adjtimex,4600000000,0x61a0,0,0,0,0,0,38,9900,1,0",
	  "adj,error,1700000004.351210641,0,6553600,16000000,16000000,8257,10,9900,38" },
	{ "front", "front,13" },
	{ "apply,4600000000,5,38,0", "ok" },
	{ "apply,4600000000,5,38,0", "ok" },
	{ "front", "front,15" },
	{ "apply,4600000000,5,100001,0", "no,TKC_INVALID" },
	{ "front", "front,15" },
	{ "apply,4700000000,6,0,0", "ok" },
	{ "apply,4700000000,0,0,0", "no,TKC_ASLEEP" },
	{ "front", "front,16" },
	{ "apply,4700000000,7,5,0", "ok" },
	{ "front", "front,17" },
	{ "apply,4700000000,1,1700000100,0", "ok" },
	{ "front", "front,18" },
	{ "apply,4700000000,8,1,37", "ok" },
	{ "front", "front,19" },
};

/* Ticks of a kernel: what changed is a sum of bits. A second is inserted at the reading 3 s, and
 * from 4 s on each second has another rate. Each tick is a command, and so are the leap and the
 * rates. */
static const struct ntp_row kernel_ticks[] = {
	{ "openhz,64,1000000000,600,0,1483228797,0,250", "open" },
	{ "adjtimex,0,0x10,0,0,0,0,16,0,0,0,0",
	  "adj,ok,1483228797.000000,0,0,16000000,16000000,16,2,10000,0" },
	{ "tick,999999999", "tick,0" },
	{ "tick,1000000000", "tick,1" },
	{ "tick,2000000000", "tick,1" },
	{ "tick,2999999999", "tick,0" },
	{ "tick,3000000000", "tick,3" },
	{ "front", "front,6" },
	{ "adjtimex,3000000000,0x2035,100000000,0,0,0,1,6,0,0,0",
	  "adj,oop,1483228799.000000000,100000000,0,0,16000000,8193,6,10000,1" },
	{ "tick,3500000000", "tick,0" },
	{ "tick,4000000000", "tick,5" },
	{ "tick,4000000000", "tick,0" },
	{ "tick,9000000000", "tick,5" },
	{ "front", "front,16" },
	{ "tick,8000000000", "no,TKC_BEHIND" },
	{ "get,0,9000000000", "at,1483228805.001952648" },
};

/* Changes of counter: from a shift of 23 to 30, to readings of 32 bits at 1.024 GHz, and asleep. The
 * seconds before begin first, the lag is carried over, and each change is a command. */
static const struct ntp_row counters[] = {
	{ "openhz,64,1000000000,600,0,1700000000,0,250", "open" },
	{ "adjtimex,0,0x2,0,2162695,0,0,0,0,0,0,0",
	  "adj,error,1700000000.000000,0,2162695,16000000,16000000,64,2,10000,0" },
	{ "counter,2500000000,64,1073741824,30,9", "ok" },
	{ "front", "front,3" },
	{ "get,1,9", "at,2.500082433" },
	{ "get,0,9", "at,1700000002.500082433" },
	{ "next", "next,499901030" },
	{ "asked", "asked,0,0,64,2162695,10000" },
	{ "counter,8,32,1000,10,4294967296", "no,TKC_INVALID" },
	{ "counter,8,32,1000,10,0", "no,TKC_BEHIND" },
	{ "get,0,600000009", "at,1700000003.100102284" },
	{ "counter,600000009,32,1000,10,4294967295", "ok" },
	{ "get,0,4294967295", "at,1700000003.100102284" },
	{ "next", "next,921495261" },
	{ "front", "front,5" },
	{ "apply,4294967295,6,0,0", "ok" },
	{ "counter,4294967296,64,8388608,23,1", "no,TKC_INVALID" },
	{ "counter,0,64,8388608,23,77", "ok" },
	{ "apply,1000000077,7,3,0", "ok" },
	{ "get,0,1000000077", "at,1700000006.100102284" },
	{ "front", "front,8" },
	{ "next", "next,1899868186" },
};

/* Refusals of a change, in their order: of `first`, of the reading, and of the rate. The clocks are
 * as slow as they can be: 230 of 256 units of the multiplier, which is less than 8388608 units allow.
 * A change that is refused for this lets the second at 1,113,043,484 begin, and none while asleep.
 * Each accepted change is to a counter whose slowest rate is as low. */
static const struct ntp_row refused_counters[] = {
	{ "open,32,256,8,5,1700000000,0,250", "open" },
	{ "counter,4294967296,32,256,8,4294967296", "no,TKC_INVALID" },
	{ "counter,4294967296,32,256,8,0", "no,TKC_INVALID" },
	{ "counter,4,32,256,8,4294967296", "no,TKC_INVALID" },
	{ "counter,4,32,256,8,0", "no,TKC_BEHIND" },
	{ "counter,2147483653,32,256,8,0", "no,TKC_BEHIND" },
	{ "counter,4,8,256,0,256", "no,TKC_INVALID" },
	{ "adjtimex,5,0x4002,0,-32768000,0,0,0,0,9000,0,0",
	  "adj,error,1700000000.000000,0,-32768000,16000000,16000000,64,2,9000,0" },
	{ "front", "front,2" },
	{ "next", "next,1113043484" },
	{ "counter,600000000,64,8388608,23,0", "no,TKC_RANGE" },
	{ "front", "front,2" },
	{ "get,1,600000000", "at,0.539062495" },
	{ "next", "next,1113043484" },
	{ "counter,1113043488,64,8388608,23,0", "no,TKC_RANGE" },
	{ "front", "front,2" },
	{ "next", "no,TKC_FURTHER" },
	{ "asked", "asked,0,0,64,-32768000,9000" },
	{ "adjtimex,1200000000,0x4,0,0,5,0,0,0,0,0,0",
	  "adj,error,1700000001.078124,0,-32768000,5,16000000,64,2,9000,0" },
	{ "counter,1199999999,32,512,9,7", "no,TKC_BEHIND" },
	{ "counter,1200000000,64,8388608,23,0", "no,TKC_RANGE" },
	{ "counter,1200000000,32,512,9,4294967296", "no,TKC_INVALID" },
	{ "counter,1200000000,32,512,9,4294967295", "ok" },
	{ "front", "front,3" },
	{ "get,1,4294967295", "at,1.078124995" },
	{ "next", "next,1026086961" },
	{ "apply,9,6,0,0", "ok" },
	{ "counter,4294967296,64,8388608,23,0", "no,TKC_INVALID" },
	{ "counter,0,32,256,8,4294967296", "no,TKC_INVALID" },
	{ "counter,0,64,8388608,23,0", "no,TKC_RANGE" },
	{ "front", "front,4" },
	{ "counter,10,16,256,8,65535", "ok" },
	{ "front", "front,5" },
	{ "next", "no,TKC_NEVER" },
	{ "apply,65534,7,2,0", "ok" },
	{ "next", "no,TKC_FURTHER" },
	{ "get,11,9", "at,1700000003.078125014" },
};

/* A leap second is one command, and so is each step that leaves the rate. */
static const struct ntp_row leap_fronts[] = {
	{ "openhz,64,1000000000,600,0,1483228797,499000000,250", "open" },
	{ "adjtimex,0,0x94,0,0,0,0,16,36,0,0,0",
	  "adj,ok,1483228797.499000,0,0,0,16000000,16,2,10000,36" },
	{ "front", "front,1" },
	{ "advance,2500999999", "ok" },
	{ "front", "front,1" },
	{ "advance,2501000000", "ok" },
	{ "front", "front,2" },
	{ "apply,9501000000,2,100000000,0", "ok" },
	{ "front", "front,3" },
	{ "apply,9501000000,2,100000000,0", "ok" },
	{ "front", "front,4" },
	{ "adjtimex,9501000000,0x100,0,0,0,0,0,0,0,1,1000000", "no,TKC_INVALID" },
	{ "front", "front,4" },
	{ "adjtimex,12501000000,0x2100,0,0,0,0,0,0,0,-1483228797,0",
	  "adj,error,200000012.000000000,0,0,16000000,16000000,8272,2,10000,37" },
	{ "front", "front,5" },
};

void try_late_ntp(void)
{
	try_each(late, try_ntp_row);
	try_each(inserted_late, try_ntp_row);
	try_each(late_refused, try_ntp_row);
	try_each(fronts, try_ntp_row);
	try_each(kernel_ticks, try_ntp_row);
	try_each(counters, try_ntp_row);
	try_each(refused_counters, try_ntp_row);
	try_each(leap_fronts, try_ntp_row);
}
