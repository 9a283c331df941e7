/* SPDX-License-Identifier: MIT OR Apache-2.0 */
/* A writer's life: it takes over, and applies commands, until it dies before a store. */
#define _DEFAULT_SOURCE

#include "page_death.h"

#include <signal.h>
#include <unistd.h>

struct life life = { .place = -1 };

/* The life's own readers, with the lines that they keep. */
static struct tkc_page_reader page_reader;
static struct tkc_latch_reader latch_reader;

static uint64_t advance_counter(void)
{
	return CYCLES + atomic_fetch_add(&shared->cycles, CYCLES);
}

uint64_t front_of(const struct tkc_snapshot *snapshot)
{
	uint64_t words[TKC_WORDS];
	int which = counter_of(snapshot);

	tkc_snapshot_words(words, snapshot);
	if (words[0] >= FRONTS || which == COUNTERS)
		fail("a snapshot that no command made");
	for (int i = 0; i < TKC_WORDS; i++)
		if (words[i] != shared->words_of[words[0]][i])
			fail("a mixture of two snapshots");
	for (int i = 0; i < 3; i++)
		if (counter_numbers[which][i] != shared->words_of[words[0]][TKC_WORDS + i])
			fail("the numbers of another counter");
	return words[0];
}

uint64_t page_front(void)
{
	struct tkc_snapshot snapshot;

	if (tkc_page_read(&shared->page, &snapshot))
		fail("the page has no snapshot");
	return front_of(&snapshot);
}

uint64_t latch_front(void)
{
	struct tkc_snapshot snapshot;

	if (tkc_latch_read(&shared->latch, &snapshot))
		fail("the latch has no snapshot");
	return front_of(&snapshot);
}

static void check_page(void)
{
	int done = life.stores - life.page;
	int is_inside = done >= BEGIN && done < BEGIN + PUBLISH;
	struct tkc_time time;
	uint32_t code = tkc_page_try_now(&shared->page, 1, TKC_CLOCK_TAI, read_counter, NULL,
					 &time);

	if (code != (is_inside ? TKC_BUSY : TKC_OK))
		fail(is_inside ? "a reader doesn't wait for a writer" : "a reader waits for nobody");
	if (tkc_page_reader_try_get(&page_reader, 1, read_counter, NULL, &time) != code)
		fail("a reader with a line returns another code");
	if (is_inside)
		return;
	if (page_front() != (done < BEGIN ? life.page_front : life.front))
		fail("the page's snapshot isn't the last one");
	if (front_of(&page_reader.kept.snapshot) != page_front())
		fail("the line isn't that of the last snapshot");
}

/* Copy 0 is selected after the first sequence, its words and the second sequence. */
static void check_latch(void)
{
	int done = life.stores - life.latch;
	uint64_t reading;

	if (latch_front() != (done < 2 + TKC_LATCH_WORDS ? life.latch_front : life.front))
		fail("the latch's snapshot isn't the last one");
	if (tkc_latch_reader_look(&latch_reader, read_counter, NULL, &reading) ||
	    front_of(&latch_reader.kept.snapshot) != latch_front())
		fail("the line isn't that of the latch's last snapshot");
}

void at_store(void)
{
	if (life.checks && life.stores) {
		check_page();
		check_latch();
	}
	if (life.stores == life.place) {
		kill(getpid(), SIGKILL);
		fail("a writer lives on");
	}
	life.stores++;
}

void note(const struct tkc_clock *clock)
{
	uint64_t words[TKC_SAVED_WORDS];

	tkc_clock_save(words, clock);
	for (int i = 0; i < TKC_LATCH_WORDS; i++)
		shared->words_of[words[0]][i] = words[i];
	life.front = words[0];
}

/* Changes the counter, or applies a command at the reading of the present counter. */
static uint32_t apply_step(struct tkc_clock *clock, uint32_t command, int64_t number)
{
	struct readings now = readings_at(advance_counter());
	struct tkc_snapshot snapshot;
	int which;

	tkc_clock_snapshot(&snapshot, clock);
	which = counter_of(&snapshot);
	if (command == CHANGE)
		return tkc_clock_change_counter(clock, now.of[which], &counters[!which],
						now.of[!which]);
	return tkc_clock_apply(clock, now.of[which], command, number, 1);
}

/* Applies a command that depends on the front and on the life. */
static void apply(struct tkc_clock *clock, int number)
{
	const int part = number % 2000;
	const struct {
		uint32_t command;
		int64_t number;
	} steps[] = {
		{ TKC_CMD_FREQ, 32768000 - number },
		{ TKC_CMD_STEP, 1 + number },
		{ TKC_CMD_TICK, 9000 + part },
		{ CHANGE, 0 },
		{ TKC_CMD_TAI_OFFSET, number },
		{ TKC_CMD_SUSPEND, 0 },
		{ CHANGE, 0 },
		{ TKC_CMD_RESUME, 1 + number },
		{ TKC_CMD_FREQ, number - 32768000 },
		{ TKC_CMD_TICK, 11000 - part },
	};
	uint64_t step = life.front % (sizeof(steps) / sizeof(steps[0]));

	if (apply_step(clock, steps[step].command, steps[step].number))
		fail("a command was refused");
}

/* Applies a command and publishes the clocks on the page, and then on the latch. */
static void command(struct tkc_clock *clock, int number)
{
	struct tkc_snapshot snapshot;

	life.page_front = life.latch_front = life.front;
	life.page = life.stores;
	life.latch = life.stores + BEGIN + PUBLISH;
	tkc_page_begin(&shared->page);
	apply(clock, number);
	note(clock);
	tkc_page_publish_clock(&shared->page, clock);
	tkc_clock_snapshot(&snapshot, clock);
	tkc_latch_publish(&shared->latch, &snapshot);
	advance_counter();
}

void live(int number, int place, uint64_t front, int commands)
{
	struct tkc_snapshot snapshot;
	struct tkc_clock clock;

	if (tkc_page_reader_init(&page_reader, &shared->page, TKC_CLOCK_TAI) ||
	    tkc_latch_reader_init(&latch_reader, &shared->latch, TKC_CLOCK_TAI))
		fail("no reader was made");
	if (tkc_page_clock(&shared->page, &clock))
		fail("the clocks can't be rebuilt");
	tkc_clock_snapshot(&snapshot, &clock);
	if (front_of(&snapshot) != front)
		fail("the clocks aren't those of the last publication");
	life.place = place;
	life.checks = 1;
	life.stores = life.page = 0;
	life.front = life.page_front = front;
	life.latch_front = latch_front();
	life.latch = BEGIN + PUBLISH + TKC_LATCH_WORDS;
	tkc_page_recover(&shared->page, &clock);
	tkc_latch_recover(&shared->latch, &clock);
	while (commands--)
		command(&clock, number);
}
