/* SPDX-License-Identifier: MIT OR Apache-2.0 */
/* The jobs, done by the hand-written clocks of plain.h. */
#include "jobs.h"
#include "plain.h"

#include <string.h>

const int copies = 1;

static struct plain_clock clock;

static void need(enum plain_code code)
{
	if (code)
		fail("a call was refused");
}

void open_clocks(void)
{
	clock = (struct plain_clock){ .last = OPENED_AT,
				      .mask = UINT64_MAX,
				      .mult = MULT,
				      .raw_mult = MULT,
				      .shift = SHIFT };
}

void get_each(struct list *list)
{
	struct plain_time time;

	for (size_t i = 0; i < list->count; i++) {
		need(plain_get(&time, &clock, list->stamps[i]));
		list->out[i] = (uint64_t)time.sec ^ time.nsec;
	}
}

void get_words_each(struct list *list)
{
	get_each(list);
}

void get_line_each(struct list *list)
{
	get_each(list);
}

void update_each(struct list *list)
{
	struct plain_clock running = clock;
	uint64_t reading = OPENED_AT, after[PLAIN_WORDS];

	for (size_t i = 0; i < list->count; i++)
		need(plain_update(&running, reading += HZ / 1000000));
	plain_words(after, &running);
	for (size_t i = 0; i < 5; i++)
		list->out[i] = after[i];
	list->out[5] = after[8];
	list->out[6] = after[9];
}

void convert_all(struct list *list)
{
	if (plain_convert(list->out, &clock, list->stamps, list->count) != list->count)
		fail("a stamp was refused");
}

void convert_untested(struct list *list)
{
	plain_loop(list->out, &clock, list->stamps, list->count);
}

void copy_all(struct list *list)
{
	memcpy(list->out, list->stamps, list->count * sizeof(*list->out));
}
