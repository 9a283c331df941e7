/* SPDX-License-Identifier: MIT OR Apache-2.0 */
/*
 * Converts a million stamps of a tracer into REALTIME. The clocks were steered
 * and stepped before. One call converts all stamps, and a second call stops at
 * a stamp that the counter can't show.
 */
#include <inttypes.h>
#include <stdbool.h>
#include <stdio.h>
#include <stdlib.h>
#include <tkcore.h>

enum {
	STAMPS = 1000000,
	HZ = 24000000,
	CYCLES = 24007, /* from one stamp to the next: about a millisecond */
	SPOILT = 654321, /* the index of the stamp that is no reading */
};

static const uint64_t OPENED_AT = 12345;

/* Returns whether the code is TKC_OK, and reports the call if it isn't. */
static bool is_done(uint32_t code, const char *call)
{
	if (code)
		fprintf(stderr, "convert: %s got code %" PRIu32 "\n", call,
			code);
	return !code;
}

/*
 * Makes a snapshot of the clocks of a counter of 48 bits. The clocks are slowed
 * by 20 ppm a quarter of a second after the opening, and stepped forward by
 * 1.5 s half a second after it.
 */
static bool make_snapshot(struct tkc_snapshot *snapshot)
{
	struct tkc_counter counter;
	struct tkc_clock clock;

	if (!is_done(tkc_counter_from_hz(&counter, 48, HZ, 600), "counter") ||
	    !is_done(tkc_clock_open(&clock, &counter, OPENED_AT, 1700000000, 0),
		     "open") ||
	    !is_done(tkc_clock_apply(&clock, OPENED_AT + HZ / 4, TKC_CMD_FREQ,
				     -20 * 65536, 0),
		     "frequency") ||
	    !is_done(tkc_clock_apply(&clock, OPENED_AT + HZ / 2, TKC_CMD_STEP, 1,
				     500000000),
		     "step"))
		return false;
	tkc_clock_snapshot(snapshot, &clock);
	return true;
}

static void make_stamps(uint64_t stamps[STAMPS])
{
	for (size_t i = 0; i < STAMPS; i++)
		stamps[i] = OPENED_AT + HZ / 2 + i * CYCLES;
}

static bool convert(uint64_t times[STAMPS], const struct tkc_snapshot *snapshot,
		    const uint64_t stamps[STAMPS])
{
	uint64_t sum = 0;
	size_t done;
	uint32_t code;

	code = tkc_snapshot_convert(times, STAMPS, &done, snapshot,
				    TKC_CLOCK_REALTIME, stamps, STAMPS);
	if (!is_done(code, "convert"))
		return false;
	for (size_t i = 0; i < done; i++)
		sum += times[i];
	printf("%zu stamps: from %" PRIu64 " ns to %" PRIu64 " ns\n", done,
	       times[0], times[done - 1]);
	printf("their sum modulo 2^64: %" PRIu64 "\n", sum);
	return true;
}

static bool convert_spoilt(uint64_t times[STAMPS],
			   const struct tkc_snapshot *snapshot,
			   uint64_t stamps[STAMPS])
{
	uint32_t code;
	size_t done;

	stamps[SPOILT] = UINT64_MAX; /* no reading of 48 bits */
	code = tkc_snapshot_convert(times, STAMPS, &done, snapshot,
				    TKC_CLOCK_REALTIME, stamps, STAMPS);
	if (code != TKC_INVALID) {
		fprintf(stderr, "convert: a stamp of 64 bits was taken\n");
		return false;
	}
	printf("stamp %zu is above the counter's readings\n", done);
	return true;
}

int main(void)
{
	static uint64_t stamps[STAMPS], times[STAMPS];
	struct tkc_snapshot snapshot;

	if (!make_snapshot(&snapshot))
		return EXIT_FAILURE;
	make_stamps(stamps);
	if (!convert(times, &snapshot, stamps) ||
	    !convert_spoilt(times, &snapshot, stamps))
		return EXIT_FAILURE;
	return EXIT_SUCCESS;
}
