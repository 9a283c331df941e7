/* SPDX-License-Identifier: MIT OR Apache-2.0 */
/*
 * table.h - with --seed, which thread of all nodes has the turn. The file `turns` in the folder of a
 * run is a struct turns.
 *
 * 1. A thread of a program needs the turn at each call that libtkrun-turns.so answers. If it hasn't
 *    the turn then, it parks: it takes an entry and waits for its state to become PARKED_GRANTED.
 * 2. The thread that has the turn runs until it waits for something, or until it has made
 *    `calls_left` calls: then it parks, too. The call in which it parks is the first one.
 *    It also parks after each signal that it sends. If a thread waits for files in the kernel
 *    (is_waited), it parks after each call by which a file may become ready: what the other one
 *    finds when it wakes doesn't depend on the next call.
 * 3. When all threads wait, tkrun takes the turn from its holder, and grants it to one of those that
 *    are PARKED_READY, by the seed. If none is, time moves.
 * 4. A thread that waits for a lock is PARKED_BLOCKED. Whoever unlocks it makes it PARKED_READY.
 * 5. A thread that waits for a condition variable has an entry that is PARKED_WAITING. A signal makes
 *    the first of these entries, by their order, PARKED_SIGNALLED. Then the thread needs the turn.
 * 6. A thread that waits for space in a pipe or a connection is PARKED_LOOKS. When all threads
 *    wait, and one has had the turn or time has moved since it has looked, tkrun makes it
 *    PARKED_LOOKING: it looks whether there is space. If there is, it needs the turn. So there is
 *    space for it when the order of turns says so, whenever the kernel has moved bytes.
 * 7. A signal may come before its thread has an entry, or afterwards. A handler that needs the turn
 *    parks, too, and gets it for both. So the moment of the signal doesn't change the order.
 */
#ifndef TABLE_H
#define TABLE_H

#include <stdatomic.h>
#include <stdbool.h>
#include <stdint.h>

enum { TURNS_LAYOUT = 0x746b5405, PARKED_MOST = 4096 };

enum parked_state {
	PARKED_READY,
	PARKED_BLOCKED,
	PARKED_GRANTED,
	PARKED_WAITING,
	PARKED_SIGNALLED,
	PARKED_LOOKS,
	PARKED_LOOKING,
};

/* A state is in the low bits of a word, and in the others how often the entry was taken: a thread that
 * has lost its entry in a handler must not wait in it for the turn of another one. */
enum { STATE_BITS = 3, STATE_MASK = (1 << STATE_BITS) - 1 };

/* Keys of what processes share are odd: that of all locks, or of a condition variable. The others are
 * addresses in the process. */
enum { KEY_SHARED = 1 };

/* The entry of a thread that parks. It is the thread's while `thread` is its number: 0 says that it
 * is free, and -1 that it is being filled. */
struct parked {
	_Atomic int32_t thread, process;
	_Atomic uint32_t word; /* state, and how often it was taken */
	_Atomic uint64_t key;	/* of a lock or a condition variable */
	_Atomic uint64_t order; /* of the waits for condition variables */
};

static inline uint32_t parked_state(const struct parked *entry)
{
	return atomic_load(&entry->word) & STATE_MASK;
}

/* Changes the state from one to another. Returns whether it was that one. */
static inline bool parked_change(struct parked *entry, uint32_t from, uint32_t to)
{
	uint32_t word = atomic_load(&entry->word);

	while ((word & STATE_MASK) == from) {
		if (atomic_compare_exchange_weak(&entry->word, &word, word - from + to))
			return true;
	}
	return false;
}

struct turns {
	uint32_t layout;
	_Atomic uint32_t is_off; /* threads need no turn any more */
	_Alignas(64) _Atomic int32_t holder; /* the thread that has the turn, or 0 */
	_Atomic uint32_t calls_left; /* until it parks; 0 if it needs another turn */
	_Atomic uint32_t is_waited;  /* another thread waits for files in the kernel */
	_Atomic uint32_t count;	     /* entries that were ever taken */
	_Atomic uint32_t blocked;    /* at least how many threads wait for locks */
	_Atomic uint32_t shared;     /* condition variables of several processes that have a key */
	_Atomic uint64_t waits;	     /* for condition variables */
	struct parked parked[PARKED_MOST];
};

#endif
