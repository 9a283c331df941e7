/* SPDX-License-Identifier: MIT OR Apache-2.0 */
/* waits.c - waits for condition variables, in the table. */
#define _GNU_SOURCE
#include "find.h"
#include "parked.h"
#include "clocks/host.h"

/* A handler may have left an earlier wait by siglongjmp. */
struct parked *turn_enter_wait(uint64_t key)
{
	static _Thread_local struct parked *last;

	if (last && parked_state(last) >= PARKED_WAITING)
		parked_leave(last);
	last = parked_enter(turn_thread(), PARKED_WAITING, key);
	if (last)
		atomic_store(&last->order, atomic_fetch_add(&turns_table->waits, 1));
	return last;
}

bool turn_wait(struct parked *entry, const struct limit *limit)
{
	uint32_t word = atomic_load(&entry->word);
	long result = 0;

	while (result != -ETIMEDOUT && (word & STATE_MASK) == PARKED_WAITING) {
		result = parked_wait_cancelled(entry, word, limit);
		word = atomic_load(&entry->word);
	}
	return result == -ETIMEDOUT;
}

bool turn_leave_wait(struct parked *entry)
{
	bool is_signalled = !parked_change(entry, PARKED_WAITING, PARKED_GRANTED);

	parked_leave(entry);
	return is_signalled;
}

/* Returns the entry of the thread that has waited longest, or NULL. */
static struct parked *find_first(uint64_t key)
{
	uint32_t count = atomic_load(&turns_table->count);
	struct parked *first = NULL;

	for (uint32_t i = 0; i < count; i++) {
		struct parked *entry = &turns_table->parked[i];

		if (parked_is_of(entry, key) && parked_state(entry) == PARKED_WAITING &&
		    (!first || atomic_load(&entry->order) < atomic_load(&first->order)))
			first = entry;
	}
	return first;
}

void turn_signal(uint64_t key, bool are_all)
{
	struct parked *first;
	bool is_done = false;

	while (!is_done && (first = find_first(key))) {
		is_done = parked_change(first, PARKED_WAITING, PARKED_SIGNALLED) && !are_all;
		host_futex_wake(&first->word);
	}
}

uint32_t turn_next_shared(void)
{
	return atomic_fetch_add(&turns_table->shared, 1) + 1;
}
