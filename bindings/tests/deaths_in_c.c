/* SPDX-License-Identifier: MIT OR Apache-2.0 */
/* The acts of deaths.h by the calls of tkcore_page.h itself. */
#include "deaths.h"

#include <string.h>

static uint64_t words_of[FRONTS][TKC_LATCH_WORDS]; /* by the front */

static const uint32_t numbers[COUNTERS][3] = { { 64, 1 << 23, 23 }, { 64, 1 << 24, 23 } };

static struct tkc_counter counter(uint64_t which)
{
	struct tkc_counter made;

	if (tkc_counter_new(&made, numbers[which][0], numbers[which][1], numbers[which][2]))
		fail("no counter is made");
	return made;
}

void open_clocks(struct tkc_clock *clock)
{
	struct tkc_counter first = counter(0);

	if (tkc_clock_open(clock, &first, 0, 1700000000, 0))
		fail("no clocks are opened");
}

void command(struct tkc_clock *clock)
{
	uint64_t words[TKC_SAVED_WORDS], front, reading;
	struct tkc_counter other;
	uint32_t code;

	tkc_clock_save(words, clock);
	front = words[0];
	reading = 1000 * (front + 1);
	other = counter(front / 4 % 2 ? 0 : 1);
	if (front % 4 == 0)
		code = tkc_clock_set_frequency(clock, reading, (int64_t)(front % 1000 * 32768));
	else if (front % 4 == 1)
		code = tkc_clock_set_tick(clock, reading, (int64_t)(9000 + front % 2000));
	else if (front % 4 == 2)
		code = tkc_clock_apply(clock, reading, TKC_CMD_TAI_OFFSET, (int64_t)(front % 1000),
				       0);
	else
		code = tkc_clock_change_counter(clock, reading, &other, reading);
	if (code)
		fail("a command was refused");
}

static void live(struct tkc_page *page, struct tkc_latch *latch, uint64_t count)
{
	struct tkc_snapshot snapshot;
	struct tkc_clock clock;

	if (tkc_page_clock(page, &clock))
		fail("no clocks can be rebuilt");
	tkc_page_recover(page, &clock);
	tkc_latch_recover(latch, &clock);
	while (count--) {
		tkc_page_begin(page);
		command(&clock);
		tkc_page_publish_clock(page, &clock);
		tkc_clock_snapshot(&snapshot, &clock);
		tkc_latch_publish(latch, &snapshot);
	}
}

void act_in_c(void *at, uint64_t act, uint64_t count)
{
	struct tkc_page *page = at;
	struct tkc_latch *latch = (struct tkc_latch *)(page + 1);
	struct tkc_snapshot snapshot;
	struct tkc_clock clock;

	open_clocks(&clock);
	tkc_clock_snapshot(&snapshot, &clock);
	if (act == DEATHS_LIVE)
		live(page, latch, count);
	else if (act == DEATHS_PUBLISH_SNAPSHOT)
		tkc_page_publish(page, &snapshot);
	else if (act == DEATHS_CREATE_SNAPSHOT)
		tkc_page_init(page, &snapshot);
	else
		tkc_page_init_clock(page, &clock);
	if (act == DEATHS_CREATE || act == DEATHS_CREATE_SNAPSHOT)
		tkc_latch_init(latch, &snapshot);
}

void note_all(void)
{
	uint64_t words[TKC_SAVED_WORDS];
	struct tkc_clock clock;

	open_clocks(&clock);
	for (int front = 0; front < FRONTS; front++) {
		tkc_clock_save(words, &clock);
		memcpy(words_of[front], words, sizeof(words_of[front]));
		command(&clock);
	}
}

uint64_t front_of(const uint64_t *words)
{
	if (words[0] >= FRONTS || memcmp(words, words_of[words[0]], sizeof(words_of[0])))
		fail("a mixture of two snapshots");
	return words[0];
}
