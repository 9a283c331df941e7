/* SPDX-License-Identifier: MIT OR Apache-2.0 */
/*
 * Compares the reads of include/tkcore_page.h that keep a line with those that convert the words of
 * each read, and with the model of model.h: on one page and one latch, on which the snapshots of
 * random clocks and random words are published. Few readers read each publication, so most of them
 * have missed several.
 *
 *     compare_readers PUBLICATIONS [SEED]
 */
#include "compare_model.h"
#include "random.h"

#include <inttypes.h>
#include <stdio.h>
#include <stdlib.h>
#include <string.h>
#include <tkcore_page.h>

enum {
	CLOCKS = 13, /* numbers, of which seven are clocks */
	LIFE = 40, /* publications of the same clocks */
	READERS = 3, /* which read a publication */
	READINGS = 4, /* of each of them */
};

static struct tkc_page page;
static struct tkc_latch latch;
static struct tkc_page_reader readers[CLOCKS];
static struct tkc_latch_reader latch_readers[CLOCKS];
static uint64_t publications, reads;

void check(bool holds, const char *condition, const char *file, int line)
{
	if (holds)
		return;
	fprintf(stderr, "compare_readers: %s, line %d, publication %" PRIu64 ": %s\n", file, line,
		publications, condition);
	exit(EXIT_FAILURE);
}

/* Returns the reading that the context is. */
static uint64_t given(void *context)
{
	return *(const uint64_t *)context;
}

/* What a read stored and returned. */
struct answer {
	uint32_t code;
	struct tkc_time time;
	uint64_t nanos;
};

/* Nothing is stored yet. */
static struct answer no_answer(void)
{
	return (struct answer){ 99, { -7, 8, 9 }, 10 };
}

static struct answer read_page(uint32_t clock, uint64_t reading)
{
	struct tkc_page_reader *reader = &readers[clock];
	struct answer answer = no_answer(), tried = no_answer();

	answer.code = tkc_page_reader_get(reader, given, &reading, &answer.time);
	CHECK(tkc_page_reader_ns(reader, given, &reading, &answer.nanos) == answer.code);
	tried.code = tkc_page_reader_try_get(reader, 1, given, &reading, &tried.time);
	CHECK(tried.code == answer.code &&
	      !memcmp(&tried.time, &answer.time, sizeof(tried.time)));
	return answer;
}

static struct answer read_latch(uint32_t clock, uint64_t reading)
{
	struct tkc_latch_reader *reader = &latch_readers[clock];
	struct answer answer = no_answer();

	answer.code = tkc_latch_reader_get(reader, given, &reading, &answer.time);
	CHECK(tkc_latch_reader_ns(reader, given, &reading, &answer.nanos) == answer.code);
	return answer;
}

/* Compares an answer with that of the read without a line, and with the model's. */
static void compare_answer(const struct answer *answer, const struct answer *plain, uint32_t code,
			   i128 value)
{
	struct answer nothing = no_answer();

	CHECK(answer->code == code && plain->code == code);
	CHECK(!memcmp(&answer->time, &plain->time, sizeof(plain->time)));
	if (!code)
		CHECK(answer->time.sec * NANOS + answer->time.nsec == value &&
		      (i128)answer->nanos == value && !answer->time.padding);
	else
		CHECK(!memcmp(&answer->time, &nothing.time, sizeof(nothing.time)) &&
		      answer->nanos == nothing.nanos);
	reads++;
}

/* Reads a clock of the page and of the latch, which the model is of. */
static void read_both(const struct model *model, uint32_t clock, uint64_t reading)
{
	struct answer plain = no_answer(), plain_latch = no_answer(), answer;
	i128 value = 0;
	uint32_t code = model_get(model, clock, reading, &value);

	plain.code = tkc_page_now(&page, clock, given, &reading, &plain.time);
	answer = read_page(clock, reading);
	compare_answer(&answer, &plain, code, value);
	plain_latch.code = tkc_latch_now(&latch, clock, given, &reading, &plain_latch.time);
	answer = read_latch(clock, reading);
	compare_answer(&answer, &plain_latch, code, value);
}

/* Reads at any reading, at one near the last command's, and at the end of the kept line. */
static void read_publication(const struct model *model)
{
	for (int i = 0; i < READERS; i++) {
		uint32_t clock = (uint32_t)below(CLOCKS);
		const struct tkc_line *line = &readers[clock].kept.line;

		read_both(model, clock, below(4) ? reading_near(model) : some());
		for (int k = 1; k < READINGS; k++) {
			read_both(model, clock, model->last + line->span + below(5) - 2);
			read_both(model, clock, (model->last + line->span + below(5) - 2) &
						model->mask);
			read_both(model, clock, (model->last + below(5) - 2) & model->mask);
		}
	}
}

static void publish(const struct tkc_snapshot *snapshot)
{
	if (below(2))
		tkc_page_begin(&page);
	tkc_page_publish(&page, snapshot);
	tkc_latch_publish(&latch, snapshot);
	publications++;
}

/* Publishes words of which one isn't that of the clocks. The reads of faulty ones return
 * TKC_BAD_WORDS. */
static void publish_words(const struct tkc_counter *counter, const struct model *model)
{
	uint64_t words[TKC_PAGE_WORDS] = { 0 };
	struct model restored = *model;
	struct tkc_snapshot snapshot;
	uint32_t bits, mult, shift;
	uint64_t place;

	model_words(model, words);
	place = below(TKC_WORDS);
	words[place] = place == 2 ? 0 : some(); /* (the model has no multiplier of its own) */
	tkc_counter_numbers(&bits, &mult, &shift, counter);
	words[TKC_WORDS] = bits;
	words[TKC_WORDS + 1] = mult;
	words[TKC_WORDS + 2] = shift;
	if (model_from_words(&restored, words)) {
		CHECK(!tkc_snapshot_from_words(&snapshot, counter, words));
		publish(&snapshot);
		read_publication(&restored);
		return;
	}
	tkc_page_publish_words(&page, words);
	publications++;
	for (uint32_t clock = 0; clock < CLOCKS; clock++) {
		struct answer answer = read_page(clock, some()), plain = no_answer();
		uint64_t reading = some();

		plain.code = tkc_page_now(&page, clock, given, &reading, &plain.time);
		compare_answer(&answer, &plain, TKC_BAD_WORDS, 0);
	}
}

/* Opens clocks, publishes them, and applies commands to them. */
static void live(struct tkc_counter *counter, const struct numbers *numbers)
{
	int64_t sec = (int64_t)below(8277292036);
	struct tkc_snapshot snapshot;
	struct tkc_clock clock;
	struct model model;

	model_open(&model, numbers->bits, numbers->mult, numbers->shift);
	model.last = some() & model.mask;
	model.real = sec * NANOS;
	CHECK(!tkc_clock_open(&clock, counter, model.last, sec, 0));
	for (int i = 0; i < LIFE; i++) {
		tkc_clock_snapshot(&snapshot, &clock);
		publish(&snapshot);
		read_publication(&model);
		if (!below(8))
			publish_words(counter, &model);
		if (below(8))
			try_command(&clock, &model);
		else
			try_change(&clock, &model, counter);
	}
}

static void make_readers(void)
{
	struct tkc_counter counter;
	struct tkc_snapshot snapshot;
	struct tkc_clock clock;

	CHECK(!tkc_counter_new(&counter, 64, 1 << 24, 24));
	CHECK(!tkc_clock_open(&clock, &counter, 0, 1700000000, 0));
	tkc_clock_snapshot(&snapshot, &clock);
	tkc_page_init(&page, &snapshot);
	tkc_latch_init(&latch, &snapshot);
	for (uint32_t i = 0; i < CLOCKS; i++)
		CHECK(!tkc_page_reader_init(&readers[i], &page, i) &&
		      !tkc_latch_reader_init(&latch_readers[i], &latch, i));
}

int main(int argc, char **argv)
{
	uint64_t wanted = argc > 1 ? strtoull(argv[1], NULL, 10) : 100000;
	struct tkc_counter counter;
	struct numbers numbers;

	if (argc > 2)
		seed(strtoull(argv[2], NULL, 10) | 1);
	make_readers();
	while (publications < wanted)
		if (make_counter(&counter, &numbers, below(2)))
			live(&counter, &numbers);
	printf("compare_readers: %" PRIu64 " reads of %" PRIu64 " publications are those of the"
	       " header\n", reads, publications);
	return EXIT_SUCCESS;
}
