/* SPDX-License-Identifier: MIT OR Apache-2.0 */
/* turn.c - how a thread waits for its turn. */
#define _GNU_SOURCE
#include "find.h"
#include "parked.h"
#include "clocks/host.h"

#include <sys/syscall.h>

bool turn_is_on(void)
{
	return turns_table && !atomic_load_explicit(&turns_table->is_off, memory_order_relaxed);
}

/* Returns the word of an entry of this thread while it is ready. */
static uint32_t ready_word(const struct parked *entry)
{
	return (atomic_load(&entry->word) & ~(uint32_t)STATE_MASK) | PARKED_READY;
}

/* A thread that has made the last call of its turn, or has given it back, needs another one. */
static bool has_turn(void)
{
	return atomic_load(&turns_table->holder) == turn_thread() &&
	       atomic_load(&turns_table->calls_left);
}

/* Lists this thread as one that needs the turn. Returns NULL if it has the turn by now: a handler
 * that came before the entry was there has parked, and has got the turn for this wait, too. */
static struct parked *enter_ready(void)
{
	struct parked *entry = parked_enter(turn_thread(), PARKED_READY, 0);

	if (!entry || !has_turn())
		return entry;
	parked_leave(entry);
	return NULL;
}

/* Waits for the turn. If a handler has parked meanwhile, it has got the turn for this wait, too,
 * and the entry is free or another thread's. */
static void park(void)
{
	int32_t thread = turn_thread();
	struct parked *entry = enter_ready();
	uint32_t word = entry ? ready_word(entry) : 0, now;

	while (entry && turn_is_on()) {
		now = atomic_load(&entry->word);
		if (atomic_load(&entry->thread) != thread || (now ^ word) & ~STATE_MASK) {
			entry = has_turn() ? NULL : enter_ready();
			word = entry ? ready_word(entry) : 0;
		} else if (now != word) {
			break;
		} else {
			parked_wait(entry, word, NULL);
		}
	}
	if (entry)
		parked_leave(entry);
}

/* Returns whether this is a child of vfork: it has the memory of its parent, who waits for it, and so
 * its parent's turn. */
static bool is_borrowed(void)
{
	return (int32_t)host_call(SYS_gettid, 0, 0, 0, 0, 0, 0) != turn_thread();
}

/* Returns whether it is one that would have to wait. */
static bool is_borrowed_wait(void)
{
	return !has_turn() && is_borrowed();
}

/* Counts a call of the thread that has the turn, also if it has parked in it: a signal may come
 * before it parks or after that, and its handler makes the same calls. Returns whether it is to
 * park. */
static bool is_last_call(void)
{
	uint32_t left = atomic_load(&turns_table->calls_left);

	while (left && !atomic_compare_exchange_weak(&turns_table->calls_left, &left, left - 1))
		;
	return left == 1;
}

bool turn_is_own(const void *caller)
{
	return turn_is_for(caller) && !is_borrowed();
}

bool turn_is_waited(void)
{
	return turn_is_on() && atomic_load_explicit(&turns_table->is_waited, memory_order_relaxed);
}

bool turn_need(const void *caller)
{
	if (!turn_is_for(caller) || is_borrowed_wait())
		return false;
	if (!has_turn())
		park();
	while (is_last_call() && !is_borrowed())
		park();
	return true;
}

void turn_have(const void *caller)
{
	if (turn_is_for(caller) && !has_turn() && !is_borrowed())
		park();
}

void turn_give(const void *caller)
{
	turn_have(caller);
	if (turn_is_own(caller) && has_turn())
		atomic_store(&turns_table->calls_left, 0);
}

void turn_pass(const void *caller)
{
	if (!turn_is_own(caller))
		return;
	if (has_turn())
		atomic_store(&turns_table->calls_left, 0);
	park();
}

/* Waits until the thread isn't blocked any more. */
static enum block_end wait_blocked(struct parked *entry, bool is_cancelled,
				   const struct limit *limit)
{
	int32_t thread = turn_thread();
	uint32_t word = ready_word(entry) - PARKED_READY + PARKED_BLOCKED;
	long result = 0;

	while (turn_is_on() && atomic_load(&entry->thread) == thread &&
	       atomic_load(&entry->word) == word) {
		result = (is_cancelled ? parked_wait_cancelled : parked_wait)(entry, word, limit);
		if (result == -EINTR)
			return BLOCK_INTERRUPTED;
		if (result == -ETIMEDOUT)
			return BLOCK_LATE;
	}
	return BLOCK_UNLOCKED;
}

/* A thread that was unlocked still waits for its turn, in its entry. Others enter again. */
enum block_end turn_block(uint64_t key, bool is_cancelled, const struct limit *limit)
{
	struct parked *entry = parked_enter(turn_thread(), PARKED_BLOCKED, key);
	enum block_end end = BLOCK_UNLOCKED;

	if (!entry)
		return end;
	atomic_fetch_add(&turns_table->blocked, 1);
	end = wait_blocked(entry, is_cancelled, limit);
	parked_leave(entry);
	atomic_fetch_sub(&turns_table->blocked, 1);
	if (turn_is_on() && !has_turn())
		park();
	return end;
}

/* Looks when tkrun lets it. Returns false if it has to wait. */
static bool look(struct parked *entry, bool (*is_there)(void *), void *what)
{
	if (parked_state(entry) != PARKED_LOOKING)
		return false;
	if (is_there(what))
		return true;
	parked_change(entry, PARKED_LOOKING, PARKED_LOOKS);
	return false;
}

enum block_end turn_look(bool (*is_there)(void *), void *what, const struct limit *limit)
{
	int32_t thread = turn_thread();
	struct parked *entry = parked_enter(thread, PARKED_LOOKS, 0);
	uint32_t word = entry ? ready_word(entry) - PARKED_READY + PARKED_LOOKS : 0;
	enum block_end end = BLOCK_UNLOCKED;
	long result;

	while (entry && end == BLOCK_UNLOCKED && turn_is_on() &&
	       atomic_load(&entry->thread) == thread && !look(entry, is_there, what)) {
		result = parked_wait_cancelled(entry, word, limit);
		end = result == -EINTR	     ? BLOCK_INTERRUPTED
		      : result == -ETIMEDOUT ? BLOCK_LATE
					     : BLOCK_UNLOCKED;
	}
	if (entry)
		parked_leave(entry);
	if (turn_is_on() && !has_turn())
		park();
	return end;
}

void turn_unblock(uint64_t key)
{
	uint32_t count;

	if (!turn_is_on() || !atomic_load(&turns_table->blocked))
		return;
	count = atomic_load(&turns_table->count);
	for (uint32_t i = 0; i < count; i++) {
		struct parked *entry = &turns_table->parked[i];

		if (parked_is_of(entry, key))
			parked_change(entry, PARKED_BLOCKED, PARKED_READY);
	}
}

void turn_begin(void)
{
	turn_number_anew();
	turn_need(NULL);
}
