/* SPDX-License-Identifier: MIT OR Apache-2.0 */
/* Reads clocks by readers that keep a line, of a page and of a latch. */
#include "worked_rows.h"

#include <tkcore_page.h>

enum clocks { COMMANDED_CLOCKS, WIDE_CLOCKS, FINE_CLOCKS, ASLEEP_CLOCKS };

/* A read, its code, and the time if that is TKC_OK. */
struct kept_read {
	enum clocks of;
	uint32_t clock;
	uint64_t reading;
	uint32_t code;
	int64_t sec;
	uint32_t nsec;
};

static const struct kept_read kept_reads[] = {
	/* at the last command, after it, and at the line's last reading */
	{ COMMANDED_CLOCKS, TKC_CLOCK_REALTIME, 9000, TKC_OK, 1800000001, 5009 },
	{ COMMANDED_CLOCKS, TKC_CLOCK_REALTIME, 9100, TKC_OK, 1800000001, 5109 },
	{ COMMANDED_CLOCKS, TKC_CLOCK_REALTIME, 2147492647, TKC_OK, 1800000003, 147488656 },
	{ COMMANDED_CLOCKS, TKC_CLOCK_MONOTONIC, 9100, TKC_OK, 0, 7100 },
	{ COMMANDED_CLOCKS, TKC_CLOCK_MONOTONIC_RAW, 9100, TKC_OK, 0, 7100 },
	{ COMMANDED_CLOCKS, TKC_CLOCK_REALTIME_COARSE, 9100, TKC_OK, 1800000001, 5009 },
	{ COMMANDED_CLOCKS, TKC_CLOCK_MONOTONIC_COARSE, 9100, TKC_OK, 0, 7000 },
	{ COMMANDED_CLOCKS, TKC_CLOCK_BOOTTIME, 9100, TKC_OK, 2, 7103 },
	{ COMMANDED_CLOCKS, TKC_CLOCK_TAI, 9100, TKC_OK, 1800000038, 5109 },
	/* behind the last command, where no line reaches */
	{ COMMANDED_CLOCKS, TKC_CLOCK_REALTIME, 8999, TKC_OK, 1800000001, 5009 },
	{ COMMANDED_CLOCKS, TKC_CLOCK_REALTIME, 2147492648, TKC_OK, 1800000001, 5009 },
	{ COMMANDED_CLOCKS, TKC_CLOCK_REALTIME_COARSE, 8999, TKC_OK, 1800000001, 5009 },
	/* above 2^32 - 1 */
	{ COMMANDED_CLOCKS, TKC_CLOCK_REALTIME, 4294967296, TKC_INVALID, 0, 0 },
	{ COMMANDED_CLOCKS, TKC_CLOCK_MONOTONIC_COARSE, 4294976396, TKC_INVALID, 0, 0 },
	/* at 4,194,304 ns a cycle, the last reading below the limit, and the first at it */
	{ WIDE_CLOCKS, TKC_CLOCK_MONOTONIC, 225563049316, TKC_OK, 946079999, 998296064 },
	{ WIDE_CLOCKS, TKC_CLOCK_MONOTONIC, 225563049317, TKC_RANGE, 0, 0 },
	/* at a nanosecond a cycle with a shift of 31, where the product has 64 bits, and 65 */
	{ FINE_CLOCKS, TKC_CLOCK_MONOTONIC, 8589934591, TKC_OK, 8, 589934591 },
	{ FINE_CLOCKS, TKC_CLOCK_MONOTONIC, 8589934592, TKC_OK, 8, 589934592 },
	{ FINE_CLOCKS, TKC_CLOCK_MONOTONIC, 100000000000, TKC_OK, 100, 0 },
	{ FINE_CLOCKS, TKC_CLOCK_MONOTONIC_COARSE, 8589934592, TKC_OK, 0, 5 },
	/* asleep */
	{ ASLEEP_CLOCKS, TKC_CLOCK_MONOTONIC, 9500, TKC_OK, 0, 7100 },
	{ ASLEEP_CLOCKS, TKC_CLOCK_MONOTONIC_RAW, 2147492648, TKC_OK, 0, 7100 },
	{ ASLEEP_CLOCKS, TKC_CLOCK_TAI, 0, TKC_OK, 1800000038, 5109 },
	{ ASLEEP_CLOCKS, TKC_CLOCK_TAI, 4294967296, TKC_INVALID, 0, 0 },
	/* no clocks */
	{ COMMANDED_CLOCKS, 2, 9100, TKC_BAD_CLOCK, 0, 0 },
	{ COMMANDED_CLOCKS, 12, 4294967296, TKC_BAD_CLOCK, 0, 0 },
	{ COMMANDED_CLOCKS, UINT32_MAX, 9100, TKC_BAD_CLOCK, 0, 0 },
};

/* Returns the reading that the context is. */
static uint64_t given(void *context)
{
	return *(const uint64_t *)context;
}

static struct tkc_clock clocks_of(enum clocks of)
{
	struct tkc_clock clock = commanded();

	switch (of) {
	case COMMANDED_CLOCKS: return clock;
	case WIDE_CLOCKS: return opened_wide();
	case FINE_CLOCKS: return opened_fine();
	default: check(!tkc_clock_suspend(&clock, 9100)); return clock;
	}
}

/* Checks what a read returned and stored, as a time and as a number of nanoseconds. */
static void check_read(const struct kept_read *row, uint32_t code, const struct tkc_time *time,
		       uint32_t ns_code, const uint64_t *nanos)
{
	check(code == row->code && ns_code == row->code);
	if (code) {
		check(is_old(time) && is_old(nanos));
		return;
	}
	check(time->sec == row->sec && time->nsec == row->nsec && !time->padding);
	check(*nanos == (uint64_t)row->sec * 1000000000 + row->nsec);
}

/* Reads a row from a page, for the first time and by the line that is kept then. */
static void try_page_read(const struct kept_read *row)
{
	struct tkc_clock clock = clocks_of(row->of);
	uint64_t reading = row->reading, nanos;
	struct tkc_page_reader reader;
	struct tkc_page page;
	struct tkc_time time;
	uint32_t code, ns_code;

	tkc_page_init_clock(&page, &clock);
	check(tkc_page_reader_init(&reader, &page, row->clock) == TKC_OK);
	for (int i = 0; i < 2; i++) {
		make_old(&time);
		make_old(&nanos);
		code = tkc_page_reader_get(&reader, given, &reading, &time);
		ns_code = tkc_page_reader_ns(&reader, given, &reading, &nanos);
		check_read(row, code, &time, ns_code, &nanos);
		make_old(&time);
		code = tkc_page_reader_try_get(&reader, 1, given, &reading, &time);
		check_read(row, code, &time, ns_code, &nanos);
	}
}

static void try_latch_read(const struct kept_read *row)
{
	struct tkc_snapshot snapshot = snapshot_of(clocks_of(row->of));
	uint64_t reading = row->reading, nanos;
	struct tkc_latch_reader reader;
	struct tkc_latch latch;
	struct tkc_time time;
	uint32_t code, ns_code;

	tkc_latch_init(&latch, &snapshot);
	check(tkc_latch_reader_init(&reader, &latch, row->clock) == TKC_OK);
	for (int i = 0; i < 2; i++) {
		make_old(&time);
		make_old(&nanos);
		code = tkc_latch_reader_get(&reader, given, &reading, &time);
		ns_code = tkc_latch_reader_ns(&reader, given, &reading, &nanos);
		check_read(row, code, &time, ns_code, &nanos);
	}
}

void try_kept_reads(void)
{
	try_each(kept_reads, try_page_read);
	try_each(kept_reads, try_latch_read);
}
