/* SPDX-License-Identifier: MIT OR Apache-2.0 */
/* The reads of page_moves.c that keep a line. It includes this file amid its own calls. */
#ifndef PAGE_MOVES_READERS_H
#define PAGE_MOVES_READERS_H

/* Readers without a line yet, and readers with the line of the first clocks. */
static struct tkc_page_reader new_reader, reader;
static struct tkc_latch_reader new_latch_reader, latch_reader;

/* Looks by a reader that may have a line. */
static uint32_t look_by(struct tkc_page_reader *by, struct tkc_snapshot *snapshot)
{
	uint64_t reading;
	uint32_t code = tkc_page_reader_look(by, read_counter, NULL, &reading);

	*snapshot = by->kept.snapshot;
	return reading == cycles ? code : TKC_INVALID;
}

static uint32_t look_anew(struct tkc_clock *found, struct tkc_snapshot *snapshot)
{
	(void)found;
	return look_by(&new_reader, snapshot);
}

static uint32_t look_by_line(struct tkc_clock *found, struct tkc_snapshot *snapshot)
{
	(void)found;
	return look_by(&reader, snapshot);
}

static uint32_t try_line(struct tkc_clock *found, struct tkc_snapshot *snapshot)
{
	struct tkc_time time, wanted;
	uint32_t code = tkc_page_reader_try_get(&reader, 1, read_counter, NULL, &time);

	(void)found;
	tkc_clock_snapshot(snapshot, &clocks);
	if (!code && (tkc_snapshot_get(&wanted, snapshot, TKC_CLOCK_TAI, cycles) ||
		      memcmp(&time, &wanted, sizeof(time))))
		return TKC_INVALID;
	return code;
}

static uint32_t look_at_latch_by(struct tkc_latch_reader *by, struct tkc_snapshot *snapshot)
{
	uint64_t reading;
	uint32_t code = tkc_latch_reader_look(by, read_counter, NULL, &reading);

	*snapshot = by->kept.snapshot;
	return reading == cycles ? code : TKC_INVALID;
}

static uint32_t look_at_latch_anew(struct tkc_clock *found, struct tkc_snapshot *snapshot)
{
	(void)found;
	return look_at_latch_by(&new_latch_reader, snapshot);
}

static uint32_t look_at_latch_by_line(struct tkc_clock *found, struct tkc_snapshot *snapshot)
{
	(void)found;
	return look_at_latch_by(&latch_reader, snapshot);
}

/* Makes the readers, half of which make their lines at once. */
static void init_readers(void)
{
	uint64_t reading;

	if (tkc_page_reader_init(&reader, &page, TKC_CLOCK_TAI) ||
	    tkc_latch_reader_init(&latch_reader, &latch, TKC_CLOCK_TAI))
		fail("the readers", "no reader was made");
	new_reader = reader;
	new_latch_reader = latch_reader;
	if (tkc_page_reader_look(&reader, tkc_no_reading, NULL, &reading) ||
	    tkc_latch_reader_look(&latch_reader, tkc_no_reading, NULL, &reading))
		fail("the readers", "no line was made");
}

#endif
