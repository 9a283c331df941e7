/* SPDX-License-Identifier: MIT OR Apache-2.0 */
/* Reads a snapshot or a page, as rust/examples/reads.rs does: `reads get|page READS`. */
#include <inttypes.h>
#include <stdio.h>
#include <stdlib.h>
#include <tkcore_page.h>

static uint64_t read_counter(void *reading)
{
	return *(uint64_t *)reading;
}

int main(int argc, char **argv)
{
	struct tkc_counter counter;
	struct tkc_snapshot snapshot;
	struct tkc_clock clock;
	struct tkc_page page;
	struct tkc_time time;
	uint64_t n, reads, sum = 0;

	if (argc != 3 || tkc_counter_from_hz(&counter, 64, 1000000000, 600) ||
	    tkc_clock_open(&clock, &counter, 0, 1700000000, 0))
		return EXIT_FAILURE;
	tkc_clock_snapshot(&snapshot, &clock);
	tkc_page_init_clock(&page, &clock);
	reads = strtoull(argv[2], NULL, 10);
	for (n = 0; n < reads; n++) {
		uint64_t reading = n;

		/* (the compiler must not know the reading) */
		__asm__ volatile("" : "+m"(reading));
		if (*argv[1] == 'g' ? tkc_snapshot_get(&time, &snapshot, TKC_CLOCK_REALTIME, reading)
				    : tkc_page_now(&page, TKC_CLOCK_REALTIME, read_counter,
						   &reading, &time))
			return EXIT_FAILURE;
		sum += time.nsec;
	}
	printf("%s: %" PRIu64 "\n", argv[1], sum);
	return EXIT_SUCCESS;
}
