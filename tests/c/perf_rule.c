/* SPDX-License-Identifier: MIT OR Apache-2.0 */
/*
 * Compares the conversions that docs/TRACERS.md describes with perf's own rule,
 * which include/uapi/linux/perf_event.h gives in 64 bits that wrap.
 *
 *     perf_rule CASES
 */
#include <inttypes.h>
#include <stdbool.h>
#include <stdio.h>
#include <stdlib.h>
#include <tkcore.h>

__extension__ typedef unsigned __int128 u128;

#define NANOS UINT64_C(1000000000)
/* The end of MONOTONIC, and of the times that REALTIME can be set to, in ns. */
#define MONOTONIC_END (946080000 * NANOS)
#define SETTABLE_END (8277292036 * NANOS)

struct page {
	uint64_t time_zero;
	uint32_t time_mult, time_shift;
};

static uint64_t state = 1;

static uint64_t any(void)
{
	state ^= state << 13;
	state ^= state >> 7;
	state ^= state << 17;
	return state;
}

static uint64_t below(uint64_t end)
{
	return any() % end;
}

static uint64_t perf_time(const struct page *page, uint64_t cycles)
{
	uint64_t quotient = cycles >> page->time_shift;
	uint64_t remainder = cycles & ((UINT64_C(1) << page->time_shift) - 1);

	return page->time_zero + quotient * page->time_mult +
	       ((remainder * page->time_mult) >> page->time_shift);
}

/* The ns of a clock at a stamp. Ends the program if the library refuses. */
static uint64_t at(const struct tkc_snapshot *snapshot, uint32_t clock,
		   uint64_t stamp)
{
	struct tkc_time time;

	if (tkc_snapshot_get(&time, snapshot, clock, stamp)) {
		fprintf(stderr, "perf_rule: a stamp is refused\n");
		exit(EXIT_FAILURE);
	}
	return (uint64_t)time.sec * NANOS + time.nsec;
}

/* The snapshot of words 1 to 4, which keep what is below a nanosecond. */
static enum tkc_code from_words(struct tkc_snapshot *out,
				const struct tkc_counter *counter,
				const struct page *page, uint64_t reading,
				uint64_t real)
{
	uint64_t words[TKC_WORDS] = { 0 };
	u128 second = (u128)NANOS << page->time_shift;
	u128 passed = (u128)reading * page->time_mult;

	words[1] = reading;
	words[2] = page->time_mult;
	words[3] = (uint64_t)(passed % second);
	words[4] = (uint64_t)(passed / second);
	words[5] = real;
	return tkc_snapshot_from_words(out, counter, words);
}

static enum tkc_code opened(struct tkc_snapshot *out,
			    const struct tkc_counter *counter, uint64_t reading,
			    uint64_t real)
{
	struct tkc_clock clock;
	enum tkc_code code;

	code = tkc_clock_open(&clock, counter, reading, (int64_t)(real / NANOS),
			      (uint32_t)(real % NANOS));
	if (!code)
		tkc_clock_snapshot(out, &clock);
	return code;
}

/* Any page of a counter of 64 MHz to 8 GHz. */
static struct page any_page(void)
{
	struct page page;

	page.time_shift = 20 + (uint32_t)below(12);
	page.time_mult = (uint32_t)((UINT64_C(1) << page.time_shift) / 8 +
				    below(UINT64_C(1) << page.time_shift));
	page.time_zero = any() & 1 ? 0 - below(1000000 * NANOS) :
				     below(SETTABLE_END / 2);
	return page;
}

static bool differs(const char *what, uint64_t got, uint64_t wanted)
{
	if (got != wanted)
		fprintf(stderr,
			"perf_rule: %s: %" PRIu64 " instead of %" PRIu64 "\n",
			what, got, wanted);
	return got != wanted;
}

/* A snapshot whose words keep what is below a nanosecond, and clocks that were
 * opened at 0, have perf's time in MONOTONIC, less time_zero. */
static bool is_exact(const struct page *page, const struct tkc_counter *counter,
		     uint64_t reading, uint64_t stamp)
{
	uint64_t wanted = perf_time(page, stamp);
	struct tkc_snapshot snapshot;
	uint64_t got;

	if (from_words(&snapshot, counter, page, reading, 0))
		return false;
	got = at(&snapshot, TKC_CLOCK_MONOTONIC, stamp) + page->time_zero;
	if (differs("words 1 to 4", got, wanted) ||
	    opened(&snapshot, counter, 0, 0))
		return false;
	got = at(&snapshot, TKC_CLOCK_MONOTONIC, stamp) + page->time_zero;
	return !differs("an opening at 0", got, wanted);
}

/* If time_zero is no more than REALTIME's limit, words have perf's time in
 * REALTIME, and an opening at any reading is at most 1 ns short of it. */
static bool is_near(const struct page *page, const struct tkc_counter *counter,
		    uint64_t reading, uint64_t stamp, uint64_t *short_of)
{
	uint64_t wanted = perf_time(page, stamp);
	struct tkc_snapshot snapshot;
	uint64_t got;

	if (from_words(&snapshot, counter, page, reading, page->time_zero))
		return false;
	got = at(&snapshot, TKC_CLOCK_REALTIME, stamp);
	if (differs("words 1 to 5", got, wanted) ||
	    opened(&snapshot, counter, reading, perf_time(page, reading)))
		return false;
	got = at(&snapshot, TKC_CLOCK_REALTIME, stamp);
	*short_of += wanted - got;
	return wanted - got <= 1 || !differs("an opening", got, wanted);
}

static bool is_one_case_right(uint64_t *short_of)
{
	struct page page = any_page();
	uint64_t end = (uint64_t)(((u128)(MONOTONIC_END - 1) << page.time_shift) /
				  page.time_mult);
	uint64_t reading = below(end) >> below(40);
	uint64_t stamp = reading + (below(end - reading) >> below(40));
	struct tkc_counter counter;

	if (tkc_counter_new(&counter, 64, page.time_mult, page.time_shift) ||
	    !is_exact(&page, &counter, reading, stamp))
		return false;
	return page.time_zero >= SETTABLE_END ||
	       is_near(&page, &counter, reading, stamp, short_of);
}

int main(int argc, char **argv)
{
	uint64_t cases = argc == 2 ? strtoull(argv[1], NULL, 10) : 0;
	uint64_t short_of = 0;

	for (uint64_t i = 0; i < cases; i++)
		if (!is_one_case_right(&short_of)) {
			fprintf(stderr, "perf_rule: case %" PRIu64 " failed\n",
				i);
			return EXIT_FAILURE;
		}
	if (cases == 0 || short_of == 0) {
		fprintf(stderr, "perf_rule: no opening was 1 ns short\n");
		return EXIT_FAILURE;
	}
	printf("%" PRIu64 " stamps have perf's times, and an opening's times "
	       "were 1 ns short %" PRIu64 " times\n",
	       cases, short_of);
	return EXIT_SUCCESS;
}
