/* SPDX-License-Identifier: MIT OR Apache-2.0 */
/* Lines of records. tests/model/model.py computed them from the definitions. */
#include "session.h"

/* Each command and each clock. A cycle is a nanosecond, and later two. */
static const struct given plain[] = {
	{ RECORD("open,32,16777216,24,4294967290,1700000000,0"), TKC_OK, "open,32,16777216,24\n" },
	{ RECORD("get,4294967290,monotonic"), TKC_OK, "at,monotonic,0.000000000\n" },
	{ RECORD("update,10"), TKC_OK, "ok,1,0.000000016\n" },
	{ RECORD("get,1000000010,realtime"), TKC_OK,
	  "at,realtime,1700000001.000000016,2023-11-14T22:13:21.000000016Z\n" },
	{ RECORD("get,1000000010,monotonic"), TKC_OK, "at,monotonic,1.000000016\n" },
	{ RECORD("get,1000000010,boottime"), TKC_OK, "at,boottime,1.000000016\n" },
	{ RECORD("get,1000000010,tai"), TKC_OK, "at,tai,1700000001.000000016\n" },
	{ RECORD("get,1000000010,realtime_coarse"), TKC_OK,
	  "at,realtime_coarse,1700000000.000000016,2023-11-14T22:13:20.000000016Z\n" },
	{ RECORD("get,1000000010,monotonic_coarse"), TKC_OK, "at,monotonic_coarse,0.000000016\n" },
	{ RECORD("get,1000000010,monotonic_raw"), TKC_OK, "at,monotonic_raw,1.000000016\n" },
	{ RECORD("get,4294967296,tai"), TKC_OK, "no,invalid\n" },
	{ RECORD("update,9"), TKC_OK, "no,behind\n" },
	{ RECORD("update,4294967296"), TKC_OK, "no,invalid\n" },
	{ RECORD("set,20,1800000000,5"), TKC_OK, "ok,2,0.000000026\n" },
	{ RECORD("get,20,realtime"), TKC_OK,
	  "at,realtime,1800000000.000000005,2027-01-15T08:00:00.000000005Z\n" },
	{ RECORD("set,20,-1,0"), TKC_OK, "no,invalid\n" },
	{ RECORD("step,30,-1,999999999"), TKC_OK, "ok,3,0.000000036\n" },
	{ RECORD("get,30,realtime"), TKC_OK,
	  "at,realtime,1800000000.000000014,2027-01-15T08:00:00.000000014Z\n" },
	{ RECORD("tai,40,37"), TKC_OK, "ok,4,0.000000046\n" },
	{ RECORD("get,40,tai"), TKC_OK, "at,tai,1800000037.000000024\n" },
	{ RECORD("freq,50,-32768000"), TKC_OK, "ok,5,0.000000056\n" },
	{ RECORD("tick,60,9000"), TKC_OK, "ok,6,0.000000065\n" },
	{ RECORD("tick,60,8999"), TKC_OK, "no,invalid\n" },
	{ RECORD("suspend,70"), TKC_OK, "ok,7,0.000000074\n" },
	{ RECORD("get,80,monotonic"), TKC_OK, "at,monotonic,0.000000074\n" },
	{ RECORD("update,80"), TKC_OK, "no,asleep\n" },
	{ RECORD("resume,90,3600,1"), TKC_OK, "ok,8,0.000000074\n" },
	{ RECORD("get,90,boottime"), TKC_OK, "at,boottime,3600.000000075\n" },
	{ RECORD("resume,90,1,0"), TKC_OK, "no,awake\n" },
	{ RECORD("resume,90,1,1000000000"), TKC_OK, "no,awake\n" },
	{ RECORD("counter,100,56,33554432,24,5"), TKC_OK, "ok,9,0.000000083\n" },
	{ RECORD("get,5,monotonic"), TKC_OK, "at,monotonic,0.000000083\n" },
	{ RECORD("get,1000000005,monotonic,899500083"), TKC_OK,
	  "at,monotonic,1.799000049\ndiffers,33,899500083\n" },
	{ RECORD("get,1000000005,monotonic,899500084"), TKC_OK,
	  "at,monotonic,1.799000049\ndiffers,34,899500084\n" },
	{ RECORD("counter,1000000005,32,16777216,24,4294967296"), TKC_OK, "no,invalid\n" },
	{ RECORD("get,72057594037927936,boottime,0"), TKC_OK, "no,invalid\ndiffers,36,0\n" },
	{ RECORD("update,36028797018963970"), TKC_OK, "ok,10,64815804.582985806\n" },
	{ RECORD("update,36028797018963972"), TKC_OK, "ok,11,64815804.582985810\n" },
};

/* Steered clocks before a midnight of UTC, with requests that have faults among them. */
static const struct given steered[] = {
	{ RECORD("open,64,8388608,23,0,1483228797,500000000,250"), TKC_OK, "open,64,8388608,23\n" },
	{ RECORD("get,1,realtime"), TKC_OK,
	  "at,realtime,1483228797.500000001,2016-12-31T23:59:57.500000001Z\n" },
	{ RECORD("adjtimex,2,0,0,0,0,0,0,0,0,0,0"), TKC_OK,
	  "adj,error,1483228797.500000,0,0,16000000,16000000,64,2,10000,0,0\n" },
	{ RECORD("adjtimex,3,8209,-499999999,0,0,0,8209,0,0,0,0"), TKC_OK,
	  "adj,ok,1483228797.500000003,-499999998,0,16000000,16000000,8209,2,10000,0,0\n" },
	{ RECORD("get,1000000000,monotonic"), TKC_OK, "at,monotonic,0.984375000\n" },
	{ RECORD("adjtimex,1000000003,49150,-1,-32768000,16000000,16000000,65535,10,11000,0,0"),
	  TKC_OK, "no,invalid\n" },
	{ RECORD("get,2500000000,realtime"), TKC_OK,
	  "at,realtime,1483228799.939390120,2016-12-31T23:59:59.939390120Z\n" },
	{ RECORD("adjtimex,2600000000,0,0,0,0,0,0,0,0,0,0"), TKC_OK,
	  "adj,error,1483228799.036529209,-411987303,0,16000000,16000000,8273,2,10000,1,7\n" },
	{ RECORD("get,3500000000,realtime,1483228799000000000"), TKC_OK,
	  "at,realtime,1483228799.911809971,2016-12-31T23:59:59.911809971Z\n"
	  "differs,9,1483228799000000000\n" },
	{ RECORD("adjtimex,3600000000,256,0,0,0,0,0,0,0,0,1000000"), TKC_OK, "no,invalid\n" },
	{ RECORD("adjtimex,3600000000,8448,0,0,0,0,0,0,0,-1483228000,999999999"), TKC_OK,
	  "adj,error,801.009079385,0,0,16000000,16000000,8273,2,10000,1,12\n" },
	{ RECORD("adjtimex,3600000000,32768,0,0,0,0,0,0,0,0,0"), TKC_OK, "no,invalid\n" },
	{ RECORD("adjtimex,3600000001,32769,-500,0,0,0,0,0,0,0,0"), TKC_OK,
	  "adj,error,801.009079386,0,0,16000000,16000000,8273,2,10000,1,12\n" },
	{ RECORD("freq,3700000000,65536"), TKC_OK, "ok,13,3.609079386\n" },
	{ RECORD("tick,3700000000,9999"), TKC_OK, "ok,14,3.609079386\n" },
	{ RECORD("counter,3800000000,32,16777216,24,0"), TKC_OK, "no,invalid\n" },
	{ RECORD("suspend,3900000000"), TKC_OK, "ok,15,3.809059574\n" },
	{ RECORD("adjtimex,4000000000,0,0,0,0,0,0,0,0,0,0"), TKC_OK, "no,asleep\n" },
	{ RECORD("resume,4000000000,86400,0"), TKC_OK, "ok,16,3.809059574\n" },
	{ RECORD("set,4100000000,1700000000,0"), TKC_OK, "ok,17,3.909049667\n" },
	{ RECORD("step,4200000000,1,0"), TKC_OK, "ok,18,4.009039761\n" },
	{ RECORD("tai,4300000000,100000"), TKC_OK, "ok,19,4.109029855\n" },
	{ RECORD("adjtimex,4300000000,0,0,0,0,0,0,0,0,0,0"), TKC_OK,
	  "adj,error,1700000001.199980188,0,65536,16000000,16000000,8273,2,9999,100000,19\n" },
	{ RECORD("update,4299999999"), TKC_OK, "no,behind\n" },
};

/* The end of MONOTONIC, and a request to clocks that aren't steered. */
static const struct given far[] = {
	{ RECORD("open,64,16777216,24,0,0,0"), TKC_OK, "open,64,16777216,24\n" },
	{ RECORD("update,946080000000000000"), TKC_OK, "no,range\n" },
	{ RECORD("get,946080000000000000,monotonic"), TKC_OK, "no,range\n" },
	{ RECORD("get,946080000000000000,tai"), TKC_OK, "at,tai,946080000.000000000\n" },
	{ RECORD("adjtimex,0,0,0,0,0,0,0,0,0,0,0"), TKC_OK, "no,invalid\n" },
	{ RECORD("get,18446744073709551615,realtime_coarse,0"), TKC_OK,
	  "at,realtime_coarse,0.000000000,1970-01-01T00:00:00.000000000Z\n" },
	{ RECORD("get,946080000000000000,monotonic,5"), TKC_OK, "no,range\ndiffers,7,5\n" },
};

/* The most commands that a session accepts over one counter (`listed_most`). */
enum { MOST = 1048576 };

/* Clocks that have accepted MOST commands refuse one, and accept a change of counter. */
static void try_full_clocks(void)
{
	static const struct given opening[] = { { RECORD("open,8,16777216,24,0,0,0"), TKC_OK,
						  "open,8,16777216,24\n" } };
	static const struct given full[] = {
		{ RECORD("update,0"), TKC_OK, "no,full\n" },
		{ RECORD("get,0,monotonic"), TKC_OK, "at,monotonic,0.000000000\n" },
		{ RECORD("counter,0,64,16777216,24,7"), TKC_OK, "ok,1048577,0.000000000\n" },
		{ RECORD("update,8"), TKC_OK, "ok,1048578,0.000000001\n" },
	};
	struct tkc_session session = carried_out(opening, 1);
	struct tkc_text text;

	for (uint32_t n = 0; n < MOST; n++)
		check(!tkc_session_record(&session, &text, "update,0", 8));
	check(tkc_session_records(&session) == MOST + 1);
	for (size_t i = 0; i < COUNT_OF(full); i++)
		carry_out(&session, &full[i]);
}

void try_lines(void)
{
	struct tkc_session session = carried_out(plain, COUNT_OF(plain));

	check(tkc_session_records(&session) == COUNT_OF(plain));
	check(tkc_session_differences(&session) == 3);
	session = carried_out(steered, COUNT_OF(steered));
	check(tkc_session_differences(&session) == 1);
	session = carried_out(far, COUNT_OF(far));
	check(tkc_session_differences(&session) == 1);
	try_full_clocks();
}
