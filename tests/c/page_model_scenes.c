/* SPDX-License-Identifier: MIT OR Apache-2.0 */
/* What the threads of page_model.c do: a writer's life, and a read. */
#include "page_model_state.h"

/* Does a command on the page. */
static void command_page(struct tkc_clock *clock, int has_begin)
{
#ifdef READING_FIRST
	clock->number = model_command(clock->number);
	tkc_page_begin(&page);
#else
	if (has_begin)
		tkc_page_begin(&page);
	clock->number = model_command(clock->number);
#endif
	tkc_page_publish_clock(&page, clock);
}

static void take_over_page(int writer, struct tkc_clock *clock)
{
	clock->number = 0;
	if (!writer)
		return;
	if (tkc_page_clock(&page, clock))
		fail("the clocks of a writer that died can't be rebuilt");
	tkc_page_recover(&page, clock);
}

static void write_page(int writer)
{
	struct tkc_clock clock;

	take_over_page(writer, &clock);
	command_page(&clock, 1);
}

static void write_without_begin(int writer)
{
	struct tkc_clock clock;

	take_over_page(writer, &clock);
	command_page(&clock, 0);
	tkc_page_publish_clock(&page, &clock);
}

static void write_new_page(int writer)
{
	struct tkc_clock clock = { 0 };

	if (writer && !tkc_page_attach(&page))
		take_over_page(writer, &clock);
	else
		tkc_page_init_clock(&page, &clock);
	command_page(&clock, 1);
}

static void command_latch(struct tkc_clock *clock)
{
	struct tkc_snapshot snapshot;

	clock->number = model_command(clock->number);
	tkc_clock_snapshot(&snapshot, clock);
	tkc_latch_publish(&latch, &snapshot);
}

/* The clocks of a new writer are those that the page has, on which a writer publishes first. */
static void write_latch(int writer)
{
	struct tkc_clock clock = { 0 };

	for (uint32_t i = 1; i <= (uint32_t)writer; i++)
		if (now->fronts[i] > now->fronts[clock.number])
			clock.number = i;
	if (writer)
		tkc_latch_recover(&latch, &clock);
	command_latch(&clock);
}

static void write_new_latch(int writer)
{
	struct tkc_clock clock = { 0 };
	struct tkc_snapshot snapshot;

	if (writer && !tkc_latch_attach(&latch)) {
		write_latch(writer);
		return;
	}
	tkc_clock_snapshot(&snapshot, &clock);
	tkc_latch_init(&latch, &snapshot);
	command_latch(&clock);
}

static int try_page(tkc_read_counter *read_counter, uint32_t *number, uint64_t *reading)
{
	struct tkc_snapshot snapshot;
	uint64_t words[TKC_LATCH_WORDS];

	if (!tkc_page_try(&page, read_counter, NULL, words, reading) ||
	    tkc_words_checked(&snapshot, words))
		return 0;
	*number = snapshot.number;
	return 1;
}

static int read_page(uint32_t *number, uint64_t *reading)
{
	return try_page(model_counter, number, reading);
}

static int read_without_counter(uint32_t *number, uint64_t *reading)
{
	return try_page(tkc_no_reading, number, reading);
}

static int read_new_page(uint32_t *number, uint64_t *reading)
{
	return !tkc_page_attach(&page) && read_page(number, reading);
}

static int rebuild(uint32_t *number, uint64_t *reading)
{
	struct tkc_clock clock;

	*reading = 0;
	if (tkc_page_clock(&page, &clock))
		return 0;
	*number = clock.number;
	return 1;
}

static int read_latch(uint32_t *number, uint64_t *reading)
{
	struct tkc_snapshot snapshot;
	uint64_t words[TKC_LATCH_WORDS];

	if (!tkc_latch_try(&latch, model_counter, NULL, words, reading) ||
	    tkc_words_checked(&snapshot, words))
		return 0;
	*number = snapshot.number;
	return 1;
}

static int read_new_latch(uint32_t *number, uint64_t *reading)
{
	return !tkc_latch_attach(&latch) && read_latch(number, reading);
}

/* Makes what a reader keeps of what is stored between its reads, and stores it after a read. */
static struct tkc_kept kept_by(const struct keeper *keeper)
{
	struct tkc_kept kept = tkc_kept_none(0);

	kept.sequence = keeper->sequence;
	kept.line.number = kept.snapshot.number = keeper->number;
	return kept;
}

static void keep(struct keeper *keeper, const struct tkc_kept *kept)
{
	keeper->sequence = (uint8_t)kept->sequence;
	keeper->number = (uint8_t)kept->line.number;
	if (kept->line.number != kept->snapshot.number)
		fail("a line of another snapshot");
}

/* Reads by one of the readers that keep a line. */
static int read_kept_page(tkc_read_counter *read_counter, uint32_t *number, uint64_t *reading)
{
	struct keeper *keeper = &now->keepers[model_any(KEEPERS)];
	struct tkc_page_reader reader = { &page, kept_by(keeper) };
	uint32_t code = tkc_page_reader_try(&reader, read_counter, NULL, reading);

	keep(keeper, &reader.kept);
	*number = reader.kept.line.number;
	return code == TKC_OK;
}

static int keep_page(uint32_t *number, uint64_t *reading)
{
	return read_kept_page(model_counter, number, reading);
}

static int keep_without_counter(uint32_t *number, uint64_t *reading)
{
	return read_kept_page(tkc_no_reading, number, reading);
}

static int keep_latch(uint32_t *number, uint64_t *reading)
{
	struct keeper *keeper = &now->keepers[model_any(KEEPERS)];
	struct tkc_latch_reader reader = { &latch, kept_by(keeper) };
	uint32_t code = tkc_latch_reader_try(&reader, model_counter, NULL, reading);

	keep(keeper, &reader.kept);
	*number = reader.kept.line.number;
	return code == TKC_OK;
}

const struct scene scenes[SCENES] = {
	{ "a page", write_page, read_page, 0, 1, 0, READS },
	{ "a page without tkc_page_begin", write_without_begin, read_without_counter, 0, 0,
	  0, READS },
	{ "a page with kept lines", write_page, keep_page, 0, 1, 0, KEPT_READS },
	{ "a page with kept lines, without tkc_page_begin", write_without_begin,
	  keep_without_counter, 0, 0, 0, KEPT_READS },
	{ "a page that is made", write_new_page, read_new_page, 0, 1, 1, READS },
	{ "clocks of a page that moves", write_page, rebuild, 0, 0, 0, READS },
	{ "a latch", write_latch, read_latch, 1, 0, 0, READS },
	{ "a latch with kept lines", write_latch, keep_latch, 1, 0, 0, READS },
	{ "a latch that is made", write_new_latch, read_new_latch, 1, 0, 1, READS },
};
