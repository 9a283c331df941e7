/* SPDX-License-Identifier: MIT OR Apache-2.0 */
/*
 * The loads, stores and fences of the machine that page_model.c simulates.
 *
 * A thread is run from its start for each of its steps. Each step that it made before returns the
 * result of that time, the next one is made, and the thread is left at the one after it.
 */
#include "page_model_state.h"

#include <string.h>

struct tkc_page page;
struct tkc_latch latch;
const struct scene *scene;
struct state *now;
int running, choice, choices, position, is_done, is_alone;
jmp_buf next_step;

static void learn(uint8_t *known, const uint8_t *other)
{
	for (int i = 0; i < PLACES; i++)
		if (known[i] < other[i])
			known[i] = other[i];
}

/* Returns whether the step was made before, with its result. Leaves at the second new step. */
static int was_made(uint64_t *result)
{
	struct thread *thread = &now->threads[running];

	if (position < thread->steps) {
		*result = thread->results[position++];
		return 1;
	}
	if (is_done)
		longjmp(next_step, 1);
	if (thread->steps == STEPS)
		fail("a thread has too many steps");
	is_done = is_alone = 1;
	return 0;
}

static uint64_t made(uint64_t result)
{
	struct thread *thread = &now->threads[running];

	thread->results[thread->steps++] = (uint8_t)result;
	position++;
	return result;
}

static int place_of(const _Atomic uint64_t *word)
{
	const _Atomic uint64_t *start = scene->is_latch ? &latch.layout : &page.layout;

	return (int)(word - start);
}

static uint64_t layout(void)
{
	return scene->is_latch ? TKC_LATCH_LAYOUT : TKC_PAGE_LAYOUT;
}

uint64_t model_load(const _Atomic uint64_t *word, memory_order order)
{
	struct thread *thread = &now->threads[running];
	int place = place_of(word);
	const struct value *value;
	uint64_t result;

	if (!was_made(&result)) {
		choices = now->counts[place] - thread->known[place];
		if (choice >= choices)
			longjmp(next_step, 1);
		thread->known[place] = (uint8_t)(thread->known[place] + choice);
		value = &now->values[place][thread->known[place]];
		learn(thread->loaded, value->view);
		if (order == memory_order_acquire)
			learn(thread->known, value->view);
		result = made(value->value);
	}
	return result == LAYOUT ? layout() : result;
}

void model_store(_Atomic uint64_t *word, uint64_t value, memory_order order)
{
	struct thread *thread = &now->threads[running];
	int place = place_of(word);
	struct value *stored;
	uint64_t result;

	if (was_made(&result))
		return;
	if (now->counts[place] == STORES)
		fail("a word gets too many stores");
	stored = &now->values[place][now->counts[place]];
	thread->known[place] = now->counts[place]++;
	stored->value = value == layout() ? LAYOUT : (uint8_t)value;
	memcpy(stored->view, order == memory_order_release ? thread->known : thread->released,
	       PLACES);
	if (place == SEQUENCE)
		learn(stored->view, stored[-1].view);
	stored->view[place] = thread->known[place];
	made(0);
}

void model_fence(memory_order order)
{
	struct thread *thread = &now->threads[running];
	uint64_t result;

	if (was_made(&result))
		return;
	if (order != memory_order_release) {
		learn(thread->known, thread->loaded);
		memset(thread->loaded, 0, PLACES);
	}
	if (order == memory_order_seq_cst) {
		is_alone = 0;
		learn(now->fenced, thread->known);
		learn(thread->known, now->fenced);
	}
	if (order != memory_order_acquire)
		memcpy(thread->released, thread->known, PLACES);
	made(0);
}

uint64_t model_counter(void *context)
{
	uint64_t result;

	(void)context;
	if (was_made(&result))
		return result;
	is_alone = 0;
	learn(now->threads[running].known, now->fenced);
	return made(now->cycles);
}

/* The rate of clocks: 2 for the first ones, and then 1 and 2 in turn. */
uint8_t time_of(uint32_t clock, uint64_t reading)
{
	uint64_t cycles = reading - now->at[clock];

	return (uint8_t)(now->times[clock] + (now->fronts[clock] % 2 ? cycles : 2 * cycles));
}

uint32_t model_any(uint32_t count)
{
	uint64_t result;

	if (was_made(&result))
		return (uint32_t)result;
	choices = (int)count;
	return (uint32_t)made((uint64_t)choice);
}

uint32_t model_command(uint32_t clock)
{
	uint64_t result;
	uint32_t number;

	if (was_made(&result))
		return (uint32_t)result;
	is_alone = 0;
	learn(now->threads[running].known, now->fenced);
	number = 1 + (uint32_t)running;
	now->fronts[number] = (uint8_t)(now->fronts[clock] + 1);
	now->at[number] = now->cycles;
	now->times[number] = time_of(clock, now->cycles);
	return (uint32_t)made(number);
}
