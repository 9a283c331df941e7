/* SPDX-License-Identifier: MIT OR Apache-2.0 */
/*
 * The calls of tkcore_page.h as functions of the package's shared object. A look ends after a
 * number of tries, so that the interpreter can handle signals while a writer is inside.
 */
#include <tkcore_page.h>

/* The version of the headers, and the sizes of values and the layouts that the package's
 * declarations must have. */
void tkcp_layout(uint64_t layout[10])
{
	layout[0] = TKC_VERSION;
	layout[1] = sizeof(struct tkc_counter);
	layout[2] = sizeof(struct tkc_clock);
	layout[3] = sizeof(struct tkc_snapshot);
	layout[4] = sizeof(struct tkc_page);
	layout[5] = sizeof(struct tkc_latch);
	layout[6] = sizeof(struct tkc_ntp);
	layout[7] = sizeof(struct tkc_timex);
	layout[8] = TKC_PAGE_LAYOUT;
	layout[9] = TKC_LATCH_LAYOUT;
}

void tkcp_page_init(struct tkc_page *page, const struct tkc_snapshot *snapshot)
{
	tkc_page_init(page, snapshot);
}

void tkcp_page_init_clock(struct tkc_page *page, const struct tkc_clock *clock)
{
	tkc_page_init_clock(page, clock);
}

uint32_t tkcp_page_attach(const struct tkc_page *page)
{
	return tkc_page_attach(page);
}

void tkcp_page_begin(struct tkc_page *page)
{
	tkc_page_begin(page);
}

void tkcp_page_publish(struct tkc_page *page, const struct tkc_snapshot *snapshot)
{
	tkc_page_publish(page, snapshot);
}

void tkcp_page_publish_clock(struct tkc_page *page, const struct tkc_clock *clock)
{
	tkc_page_publish_clock(page, clock);
}

uint32_t tkcp_page_clock(const struct tkc_page *page, struct tkc_clock *out)
{
	return tkc_page_clock(page, out);
}

void tkcp_page_recover(struct tkc_page *page, const struct tkc_clock *clock)
{
	tkc_page_recover(page, clock);
}

uint32_t tkcp_page_look(const struct tkc_page *page, uint32_t tries, tkc_read_counter *read_counter,
			struct tkc_snapshot *out, uint64_t *reading)
{
	uint64_t words[TKC_LATCH_WORDS];

	for (; tries; tries--)
		if (tkc_page_try(page, read_counter ? read_counter : tkc_no_reading, NULL, words,
				 reading))
			return tkc_words_checked(out, words);
	return TKC_BUSY;
}

void tkcp_latch_init(struct tkc_latch *latch, const struct tkc_snapshot *snapshot)
{
	tkc_latch_init(latch, snapshot);
}

uint32_t tkcp_latch_attach(const struct tkc_latch *latch)
{
	return tkc_latch_attach(latch);
}

void tkcp_latch_publish(struct tkc_latch *latch, const struct tkc_snapshot *snapshot)
{
	tkc_latch_publish(latch, snapshot);
}

void tkcp_latch_recover(struct tkc_latch *latch, const struct tkc_clock *clock)
{
	tkc_latch_recover(latch, clock);
}

uint32_t tkcp_latch_look(const struct tkc_latch *latch, uint32_t tries,
			 tkc_read_counter *read_counter, struct tkc_snapshot *out,
			 uint64_t *reading)
{
	uint64_t words[TKC_LATCH_WORDS];

	for (; tries; tries--)
		if (tkc_latch_try(latch, read_counter ? read_counter : tkc_no_reading, NULL, words,
				  reading))
			return tkc_words_checked(out, words);
	return TKC_BUSY;
}
