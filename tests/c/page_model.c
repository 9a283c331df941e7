/* SPDX-License-Identifier: MIT OR Apache-2.0 */
/*
 * Runs the code of include/tkcore_page.h on a simulated machine, in every order of its steps. The
 * machine reorders loads and stores as C11 allows, and so more than x86-64 does:
 *   - Each word keeps all values that were stored. A load may return any of them that isn't older
 *     than what its thread knows of. A thread learns from its own loads and stores, and, by acquire
 *     loads and acquire fences, what the storing thread knew at its release.
 *   - A reading of the counter comes after all that other threads stored before a full fence. So it
 *     is on every machine where a store becomes visible to all threads at once.
 *   - A store of the sequence depends on the value before it, and passes on what that one did.
 *   - No store comes before an earlier load. A reader has no store, and a writer's depend on its
 *     loads.
 *
 * A writer may die before each of its steps, and another one takes over. Meanwhile a reader reads,
 * again and again. Readers store nothing, so one that knows what it read before is as good as
 * several that pass it on to one another. No read may be a mixture or go back. A reader that keeps a
 * line stores it only for itself: each read is by one of two of them, the first of which has the
 * line of the first clocks.
 *
 * tests/c/model_controls shows that this finds wrong headers.
 */
#include "page_model_state.h"

#include <stdio.h>
#include <stdlib.h>
#include <string.h>

enum { SEEN = 1 << 22 };

static uint64_t seen[SEEN], states; /* the states that were met, by their hash */

void fail(const char *what)
{
	fprintf(stderr, "page_model: %s: %s\n", scene->name, what);
	exit(EXIT_FAILURE);
}

/* Checks what the reader got: neither the front nor the time may go back. */
static void check_read(uint32_t number, uint64_t reading)
{
	uint8_t time;

	if (number >= CLOCKS)
		fail("clocks that no writer had");
	if (now->fronts[number] < now->front)
		fail("the front went back");
	now->front = now->fronts[number];
	now->reads++;
	if (!scene->has_times)
		return;
	if (reading < now->at[number])
		fail("a reading before its command");
	time = time_of(number, reading);
	if (time < now->time)
		fail("MONOTONIC went back");
	now->time = time;
}

static void end(struct thread *thread)
{
	memset(thread, 0, sizeof(*thread));
	thread->progress = ENDED;
}

/* Runs the thread from its start up to the second new step. */
static void run(void)
{
	struct thread *thread = &now->threads[running];
	uint32_t number = 0;
	uint64_t reading = 0;

	position = is_done = is_alone = 0;
	if (setjmp(next_step))
		return;
	if (running != READER) {
		scene->write(running);
		thread->progress = ENDED;
		return;
	}
	if (scene->read(&number, &reading))
		check_read(number, reading);
	thread->steps = 0;
	memset(thread->results, 0, sizeof(thread->results));
	if (now->reads == scene->reads)
		end(thread);
}

/* Lets the next writer take over, which knows of all stores. */
static void pass_on(struct state *state, int writer)
{
	end(&state->threads[writer]);
	if (writer + 1 == WRITERS)
		return;
	state->threads[writer + 1].progress = RUNS;
	for (int i = 0; i < PLACES; i++)
		state->threads[writer + 1].known[i] = (uint8_t)(state->counts[i] - 1);
}

/* After all writers the page or the latch has the clocks of the last command, whole and at rest. */
static void check_end(const struct state *state)
{
	int words = scene->is_latch ? TKC_LATCH_WORDS : TKC_PAGE_WORDS;
	uint8_t sequence = state->values[SEQUENCE][state->counts[SEQUENCE] - 1].value;
	int copy = scene->is_latch ? sequence & 1 : sequence / 2 % 2;

	if (sequence % 2)
		fail("a writer is inside after all have ended");
	for (int i = 2 + copy * words; i < 2 + (copy + 1) * words; i++)
		if (state->values[i][state->counts[i] - 1].value != WRITERS)
			fail("the last clocks aren't published");
}

static int is_new(const struct state *state)
{
	uint64_t hash = 1469598103934665603U, word, at;
	const char *bytes = (const char *)state;

	for (size_t i = 0; i + sizeof(word) <= sizeof(*state); i += sizeof(word)) {
		memcpy(&word, bytes + i, sizeof(word));
		hash = (hash ^ word) * 0x9e3779b97f4a7c15U;
		hash ^= hash >> 29;
	}
	for (at = hash % SEEN; seen[at]; at = (at + 1) % SEEN)
		if (seen[at] == hash)
			return 0;
	if (++states > SEEN / 2)
		fail("too many states");
	seen[at] = hash;
	return 1;
}

static void explore(const struct state *state);

/* Makes a thread's next step with each of its results. Returns whether it is a writer's load, store
 * or fence that isn't a full one. */
static int step(const struct state *state, int thread)
{
	struct state next;
	int is_commuting = 0;

	for (int i = 0, most = 1; i < most; i++) {
		next = *state;
		now = &next;
		running = thread;
		choice = i;
		choices = 1;
		run();
		most = choices;
		is_commuting = thread != READER && is_alone;
		if (thread != READER && next.threads[thread].progress == ENDED)
			pass_on(&next, thread);
		explore(&next);
	}
	return is_commuting;
}

/* Makes the steps of the writer that runs. Returns what its `step` returned, or 0. */
static int write_or_die(const struct state *state)
{
	struct state next;
	int writer = 0;

	while (writer < WRITERS && state->threads[writer].progress != RUNS)
		writer++;
	if (writer == WRITERS) {
		check_end(state);
		return 0;
	}
	if (writer < WRITERS - 1) {
		next = *state;
		pass_on(&next, writer);
		explore(&next);
	}
	return step(state, writer);
}

/*
 * Makes every next step: of a thread, of the counter, or a writer's death. If the writer's next
 * step is a load, a store or a weak fence, the reader's and the counter's steps may wait until
 * after it: each of them has the same results then, since older values can still be loaded.
 */
static void explore(const struct state *state)
{
	struct state next;

	if (!is_new(state) || write_or_die(state))
		return;
	if (state->threads[READER].progress == RUNS)
		step(state, READER);
	if (scene->has_times && state->cycles < TICKS) {
		next = *state;
		next.cycles++;
		explore(&next);
	}
}

static void begin(struct state *state)
{
	memset(state, 0, sizeof(*state));
	for (int i = 0; i < PLACES; i++) {
		state->counts[i] = 1;
		state->values[i][0].value = (uint8_t)(scene->starts_empty ? CLOCKS + i : 0);
	}
	if (!scene->starts_empty)
		state->values[0][0].value = LAYOUT;
	state->threads[0].progress = state->threads[READER].progress = RUNS;
	for (int i = 1; i < KEEPERS; i++)
		state->keepers[i].sequence = 1;
}

int main(int argc, char **argv)
{
	struct state first;
	int i;

	for (i = 0; i < SCENES; i++) {
		scene = &scenes[i];
		if (argc > 1 && strcmp(argv[1], scene->name))
			continue;
		memset(seen, 0, sizeof(seen));
		states = 0;
		begin(&first);
		explore(&first);
		printf("page_model: %s: %llu states, and each is right\n", scene->name,
		       (unsigned long long)states);
	}
	return EXIT_SUCCESS;
}
