/* SPDX-License-Identifier: MIT OR Apache-2.0 */
/* Inserts a leap second: REALTIME goes back by a second and the TAI offset grows by one, in one
 * command. So no snapshot has REALTIME back without the new offset: TAI never goes back. */
#include <stdio.h>
#include <tkcore.h>

#define HZ 1000000
/* 2016-12-31 23:59:59 UTC, a second before the last leap second that was inserted */
#define OPENING INT64_C(1483228799)
#define OFFSET_BEFORE 36

/* Prints REALTIME and TAI at a reading of a snapshot, as a reader gets them. */
static int show(const struct tkc_snapshot *published, uint64_t reading)
{
	struct tkc_time real, tai;

	if (tkc_snapshot_get(&real, published, TKC_CLOCK_REALTIME, reading) ||
	    tkc_snapshot_get(&tai, published, TKC_CLOCK_TAI, reading))
		return -1;
	printf("reading %7llu: REALTIME %lld.%09u, TAI %lld.%09u\n", (unsigned long long)reading,
	       (long long)real.sec, real.nsec, (long long)tai.sec, tai.nsec);
	return 0;
}

int main(void)
{
	struct tkc_counter counter;
	struct tkc_clock clock;
	struct tkc_snapshot published;
	uint64_t midnight;

	if (tkc_counter_from_hz(&counter, 32, HZ, 600) ||
	    tkc_clock_open(&clock, &counter, 0, OPENING, 0) ||
	    tkc_clock_set_tai_offset(&clock, 0, OFFSET_BEFORE))
		return 1;
	tkc_clock_snapshot(&published, &clock);
	/* the first reading at which REALTIME is the second that is repeated */
	if (tkc_snapshot_reading(&midnight, &published, TKC_CLOCK_REALTIME, OPENING + 1, 0) ||
	    show(&published, midnight - HZ / 2) || show(&published, midnight))
		return 1;
	if (tkc_clock_leap(&clock, midnight, -1, OFFSET_BEFORE + 1))
		return 1;
	tkc_clock_snapshot(&published, &clock);
	return show(&published, midnight) || show(&published, midnight + HZ / 2) ||
	       show(&published, midnight + HZ);
}
