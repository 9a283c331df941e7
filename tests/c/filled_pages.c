/* SPDX-License-Identifier: MIT OR Apache-2.0 */
/* The calls on pages and latches. */
#include "filled.h"

#include <tkcore_page.h>

static void page_init(void *out)
{
	struct tkc_snapshot snapshot;

	fill_snapshot(&snapshot);
	make(tkc_page_init(out, &snapshot));
}

static void page_published(void *out)
{
	struct tkc_clock clock;

	page_init(out);
	fill_commanded(&clock);
	make(tkc_page_begin(out));
	make(tkc_page_publish_clock(out, &clock));
}

static void latch_init(void *out)
{
	struct tkc_snapshot snapshot;

	fill_snapshot(&snapshot);
	make(tkc_latch_init(out, &snapshot));
}

static void page_read(void *out)
{
	struct tkc_page page;

	page_published(&page);
	made(tkc_page_read(&page, out));
}

static void page_clock(void *out)
{
	struct tkc_page page;

	page_published(&page);
	made(tkc_page_clock(&page, out));
}

static void latch_read(void *out)
{
	struct tkc_latch latch;

	latch_init(&latch);
	made(tkc_latch_read(&latch, out));
}

static uint64_t reading_ten(void *context)
{
	(void)context;
	return 10;
}

static void page_reader_init(void *out)
{
	static struct tkc_page page;

	page_published(&page);
	made(tkc_page_reader_init(out, &page, TKC_CLOCK_TAI));
}

static void page_reader_read(void *out)
{
	uint64_t nanos;

	page_reader_init(out);
	made(tkc_page_reader_ns(out, reading_ten, NULL, &nanos));
}

static void page_reader_get(void *out)
{
	struct tkc_page_reader reader;

	page_reader_init(&reader);
	made(tkc_page_reader_get(&reader, reading_ten, NULL, out));
}

static void latch_reader_read(void *out)
{
	static struct tkc_latch latch;
	uint64_t nanos;

	latch_init(&latch);
	made(tkc_latch_reader_init(out, &latch, TKC_CLOCK_TAI));
	made(tkc_latch_reader_ns(out, reading_ten, NULL, &nanos));
}

const struct filled filled_pages[] = {
	{ "page_init", page_init, sizeof(struct tkc_page) },
	{ "page_published", page_published, sizeof(struct tkc_page) },
	{ "page_read", page_read, sizeof(struct tkc_snapshot) },
	{ "page_clock", page_clock, sizeof(struct tkc_clock) },
	{ "latch_init", latch_init, sizeof(struct tkc_latch) },
	{ "latch_read", latch_read, sizeof(struct tkc_snapshot) },
	{ "page_reader_init", page_reader_init, sizeof(struct tkc_page_reader) },
	{ "page_reader_read", page_reader_read, sizeof(struct tkc_page_reader) },
	{ "page_reader_get", page_reader_get, sizeof(struct tkc_time) },
	{ "latch_reader_read", latch_reader_read, sizeof(struct tkc_latch_reader) },
	{ NULL, NULL, 0 },
};
