/* SPDX-License-Identifier: MIT OR Apache-2.0 */
/*
 * Calls each read of include/tkcore_page.h at places where its answer is known: inside a writer's
 * command, after it, on a page that a writer changes at each reading, and on memory without a page.
 */
#include <inttypes.h>
#include <stdio.h>
#include <stdlib.h>
#include <string.h>
#include <tkcore_page.h>

enum { HZ = 1000000000, OPENED = 1000, TRIES = 5, FASTEST = 32768000 };

static struct tkc_page page;
static struct tkc_latch latch;
static struct tkc_clock clocks;
static struct tkc_snapshot snapshot;
static uint64_t cycles = OPENED;
static int faults, readings;

static void check(int is_right, const char *what)
{
	if (is_right)
		return;
	fprintf(stderr, "page_calls: %s\n", what);
	faults++;
}

static uint64_t read_counter(void *context)
{
	(void)context;
	readings++;
	return cycles;
}

/* A counter whose reading lets a writer publish. */
static uint64_t read_and_publish(void *context)
{
	tkc_page_begin(&page);
	tkc_page_publish_clock(&page, &clocks);
	tkc_latch_publish(&latch, &snapshot);
	return read_counter(context);
}

static void command(uint32_t command, int64_t number)
{
	cycles += HZ;
	tkc_page_begin(&page);
	check(!tkc_clock_apply(&clocks, cycles, command, number, 0), "a command was refused");
	tkc_clock_snapshot(&snapshot, &clocks);
	tkc_page_publish_clock(&page, &clocks);
	tkc_latch_publish(&latch, &snapshot);
}

static int are_equal(const struct tkc_snapshot *left, const struct tkc_snapshot *right)
{
	uint64_t words[2][TKC_WORDS];

	tkc_snapshot_words(words[0], left);
	tkc_snapshot_words(words[1], right);
	return !memcmp(words[0], words[1], sizeof(words[0]));
}

static int are_equal_clocks(const struct tkc_clock *left, const struct tkc_clock *right)
{
	uint64_t words[2][TKC_WORDS];
	int64_t frequency[2], tick[2];

	tkc_clock_words(words[0], &frequency[0], &tick[0], left);
	tkc_clock_words(words[1], &frequency[1], &tick[1], right);
	return frequency[0] == frequency[1] && tick[0] == tick[1] &&
	       !memcmp(words[0], words[1], sizeof(words[0]));
}

static uint32_t try_now(uint32_t tries, struct tkc_time *time)
{
	return tkc_page_try_now(&page, tries, TKC_CLOCK_MONOTONIC, read_counter, NULL, time);
}

/* A look gives the latest snapshot and the counter's reading. */
static void check_looks(void)
{
	struct tkc_snapshot found;
	struct tkc_time time, now;
	uint64_t reading = 0;

	cycles += 12345;
	check(!tkc_page_look(&page, read_counter, NULL, &found, &reading) && reading == cycles &&
	      are_equal(&found, &snapshot), "tkc_page_look gave another snapshot or reading");
	reading = 0;
	check(!tkc_latch_look(&latch, read_counter, NULL, &found, &reading) && reading == cycles &&
	      are_equal(&found, &snapshot), "tkc_latch_look gave another snapshot or reading");
	check(!tkc_page_read(&page, &found) && are_equal(&found, &snapshot),
	      "tkc_page_read gave another snapshot");
	check(!tkc_latch_read(&latch, &found) && are_equal(&found, &snapshot),
	      "tkc_latch_read gave another snapshot");
	check(!tkc_snapshot_get(&time, &snapshot, TKC_CLOCK_MONOTONIC, cycles), "no time");
	check(!tkc_page_now(&page, TKC_CLOCK_MONOTONIC, read_counter, NULL, &now) &&
	      !memcmp(&now, &time, sizeof(now)), "tkc_page_now gave another time");
	check(!tkc_latch_now(&latch, TKC_CLOCK_MONOTONIC, read_counter, NULL, &now) &&
	      !memcmp(&now, &time, sizeof(now)), "tkc_latch_now gave another time");
	check(!try_now(1, &now) && !memcmp(&now, &time, sizeof(now)),
	      "tkc_page_try_now gave another time");
	check(tkc_page_now(&page, 2, read_counter, NULL, &now) == TKC_BAD_CLOCK &&
	      tkc_latch_now(&latch, 2, read_counter, NULL, &now) == TKC_BAD_CLOCK &&
	      tkc_page_try_now(&page, 1, 2, read_counter, NULL, &now) == TKC_BAD_CLOCK,
	      "clock 2 was read");
}

/* A try that finds a writer inside, or that a writer comes between, is one of `tries`. */
static void check_busy(void)
{
	struct tkc_time time;

	check(try_now(0, &time) == TKC_BUSY, "no try gave a time");
	tkc_page_begin(&page);
	readings = 0;
	check(try_now(TRIES, &time) == TKC_BUSY && !readings, "a writer was inside, unnoticed");
	tkc_page_begin(&page);
	check(try_now(1, &time) == TKC_BUSY, "a second begin let readers in");
	tkc_page_publish_clock(&page, &clocks);
	check(!try_now(1, &time), "a publication kept readers out");
	tkc_page_publish_clock(&page, &clocks);
	check(!try_now(1, &time), "a publication without tkc_page_begin kept readers out");
	readings = 0;
	check(tkc_page_try_now(&page, TRIES, TKC_CLOCK_MONOTONIC, read_and_publish, NULL,
			       &time) == TKC_BUSY && readings == TRIES,
	      "not so many tries as were asked for");
}

/* The clocks of the last publication can be rebuilt, also while a writer is inside. */
static void check_clock(void)
{
	struct tkc_clock found;

	check(!tkc_page_clock(&page, &found) && are_equal_clocks(&found, &clocks),
	      "tkc_page_clock gave other clocks");
	tkc_page_begin(&page);
	check(!tkc_page_clock(&page, &found) && are_equal_clocks(&found, &clocks),
	      "tkc_page_clock gave other clocks inside");
	tkc_page_publish(&page, &snapshot);
	check(tkc_page_clock(&page, &found) == TKC_BAD_WORDS,
	      "clocks were rebuilt from a snapshot alone");
	tkc_page_recover(&page, &clocks);
	tkc_latch_recover(&latch, &clocks);
	check(!tkc_page_clock(&page, &found) && are_equal_clocks(&found, &clocks),
	      "tkc_page_recover left other clocks");
}

/* Attaches a page, and makes a reader of it, which returns the same code and writes nothing if it
 * fails. */
static uint32_t attach_page(const struct tkc_page *of)
{
	static struct tkc_page_reader zeros, reader;
	uint32_t code = tkc_page_attach(of);

	memset(&reader, 0, sizeof(reader));
	check(tkc_page_reader_init(&reader, of, TKC_CLOCK_TAI) == code, "another code of a reader");
	check(!code == !!memcmp(&reader, &zeros, sizeof(zeros)), "a refused reader was written");
	return code;
}

static uint32_t attach_latch(const struct tkc_latch *of)
{
	static struct tkc_latch_reader zeros, reader;
	uint32_t code = tkc_latch_attach(of);

	memset(&reader, 0, sizeof(reader));
	check(tkc_latch_reader_init(&reader, of, TKC_CLOCK_TAI) == code, "another code of a reader");
	check(!code == !!memcmp(&reader, &zeros, sizeof(zeros)), "a refused reader was written");
	return code;
}

/* The layouts before the counter was published with the words: "tkcpage" and "tkclatc", 1. */
static void check_former_layouts(void)
{
	static struct tkc_page former;
	static struct tkc_latch former_latch;

	memcpy(&former, &page, sizeof(page));
	memcpy(&former.layout, "\x01" "egapckt", 8);
	check(attach_page(&former) == TKC_BAD_LAYOUT, "the former layout is a page");
	memcpy(&former_latch, &latch, sizeof(latch));
	memcpy(&former_latch.layout, "\x01" "ctalckt", 8);
	check(attach_latch(&former_latch) == TKC_BAD_LAYOUT, "the former layout is a latch");
	memcpy(&former.layout, "\x02" "egapckt", 8);
	check(attach_page(&former) == TKC_OK, "this layout is no page");
	memcpy(&former_latch.layout, "\x02" "ctalckt", 8);
	check(attach_latch(&former_latch) == TKC_OK, "this layout is no latch");
	check(sizeof(former) == 256 && sizeof(former_latch) == 224, "another size of this layout");
}

/* Memory that isn't a page, or not one of this layout. */
static void check_layout(void)
{
	static struct tkc_page no_page;
	static struct tkc_latch no_latch;
	struct tkc_snapshot snapshot_found;
	struct tkc_clock found;

	check(attach_page(&page) == TKC_OK, "the page isn't one");
	check(attach_latch(&latch) == TKC_OK, "the latch isn't one");
	check(attach_page(&no_page) == TKC_BAD_LAYOUT, "zeros are a page");
	check(attach_latch(&no_latch) == TKC_BAD_LAYOUT, "zeros are a latch");
	check(tkc_page_clock(&no_page, &found) == TKC_BAD_LAYOUT, "zeros have clocks");
	memcpy(&no_latch, &page, sizeof(no_latch));
	check(attach_latch(&no_latch) == TKC_BAD_LAYOUT, "a page is a latch");
	memcpy(&no_page, &latch, sizeof(latch));
	check(attach_page(&no_page) == TKC_BAD_LAYOUT, "a latch is a page");
	check_former_layouts();
	memcpy(&no_page, &page, sizeof(page));
	memset(&no_page.copies[0][TKC_WORDS], 0, sizeof(no_page.copies[0][0]));
	check(tkc_page_clock(&no_page, &found) == TKC_BAD_WORDS, "clocks of no bits");
	check(tkc_page_read(&no_page, &snapshot_found) == TKC_BAD_BITS, "a counter of no bits");
	memset(&no_page.copies[0][TKC_WORDS], 1, sizeof(no_page.copies[0][0]));
	check(tkc_page_read(&no_page, &snapshot_found) == TKC_BAD_WORDS, "a counter of many bits");
}

static uint32_t open_all(void)
{
	struct tkc_counter counter;
	uint32_t code = tkc_counter_from_hz(&counter, 64, HZ, 10);

	if (!code)
		code = tkc_clock_open(&clocks, &counter, cycles, 1700000000, 0);
	if (code)
		return code;
	tkc_clock_snapshot(&snapshot, &clocks);
	tkc_page_init_clock(&page, &clocks);
	tkc_latch_init(&latch, &snapshot);
	return TKC_OK;
}

int main(void)
{
	static const struct {
		uint32_t command;
		int64_t number;
	} steps[] = {
		{ TKC_CMD_UPDATE, 0 },		 { TKC_CMD_TICK, 9001 },
		{ TKC_CMD_FREQ, 2 * FASTEST },	 { TKC_CMD_FREQ, -FASTEST - 1 },
		{ TKC_CMD_TAI_OFFSET, 37 },	 { TKC_CMD_SUSPEND, 0 },
		{ TKC_CMD_RESUME, 5 },		 { TKC_CMD_STEP, 3 },
	};
	size_t i;

	if (open_all()) {
		fprintf(stderr, "page_calls: no clocks were opened\n");
		return EXIT_FAILURE;
	}
	check_layout();
	for (i = 0; i < sizeof(steps) / sizeof(steps[0]); i++) {
		check_looks();
		check_busy();
		check_clock();
		command(steps[i].command, steps[i].number);
	}
	check_looks();
	if (faults)
		return EXIT_FAILURE;
	printf("page_calls: each read of a page and a latch gave the answer that is known\n");
	return EXIT_SUCCESS;
}
