/* SPDX-License-Identifier: MIT OR Apache-2.0 */
/* Prints REALTIME two seconds after the clocks of a counter of 1 MHz were opened. */
#include <stdio.h>
#include <tkcore.h>

/* Stores REALTIME at the reading 2,000,000. Returns 0 if no call is refused. */
static int wall_time(struct tkc_time *time)
{
	struct tkc_counter counter;
	struct tkc_clock clock;
	struct tkc_snapshot snapshot;

	if (tkc_counter_from_hz(&counter, 32, 1000000, 600) ||
	    tkc_clock_open(&clock, &counter, 0, 1700000000, 0) ||
	    tkc_clock_update(&clock, 1000000))
		return -1;
	tkc_clock_snapshot(&snapshot, &clock);
	return tkc_snapshot_get(time, &snapshot, TKC_CLOCK_REALTIME, 2000000);
}

int main(void)
{
	struct tkc_time time;

	if (wall_time(&time))
		return 1;
	printf("%lld.%09u\n", (long long)time.sec, time.nsec);
	return 0;
}
