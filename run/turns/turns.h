/* SPDX-License-Identifier: MIT OR Apache-2.0 */
/*
 * turns.h - libtkrun-turns.so: the calls at which a thread needs the turn (table.h). tkrun lets
 * programs load it with --seed, in front of its other libraries. A process that doesn't find the
 * table makes the calls as they are.
 */
#ifndef TURNS_H
#define TURNS_H

#include "table.h"

#include <errno.h>
#include <stdbool.h>
#include <stddef.h>
#include <time.h>

#define EXPORT __attribute__((visibility("default")))

/* The next function of this name: of another library of tkrun, or of the C library. */
#define REAL(name)                                                             \
	({                                                                     \
		static __typeof__(&name) real_##name;                          \
		if (!real_##name)                                              \
			real_##name = (__typeof__(&name))turn_real_call(#name); \
		real_##name;                                                   \
	})

/* Where the calling function returns to. */
#define CALLER __builtin_return_address(0)

/* Defines a call after which the thread needs the turn. */
#define AFTER(type, name, parameters, arguments)       \
	EXPORT type name parameters                    \
	{                                              \
		type result;                           \
                                                       \
		turn_have(CALLER);                     \
		result = REAL(name) arguments;         \
		turn_need(CALLER);                     \
		return result;                         \
	}

/* Defines a call before which the thread needs the turn, and that isn't counted. Most threads have
 * it. One that the C library's own pthread_create has started has none yet. */
#define BEFORE(type, name, parameters, arguments)      \
	EXPORT type name parameters                    \
	{                                              \
		turn_have(CALLER);                     \
		return REAL(name) arguments;           \
	}

/* Finds a function of the next library, or ends the process. */
void *turn_real_call(const char *name);

/* Defines a call that lets other threads act at once, by signals or in the kernel. What they do
 * before they park is done when it returns. A signal that they cause may come before this thread
 * parks: its handler waits for the next turn, as it would after that. */
#define PASS(type, name, parameters, arguments)        \
	EXPORT type name parameters                    \
	{                                              \
		type result;                           \
                                                       \
		turn_give(CALLER);                     \
		result = REAL(name) arguments;         \
		turn_have(CALLER);                     \
		return result;                         \
	}

/* Return whether threads need the turn, and whether a caller needs it: it isn't a library of tkrun.
 * The last one also returns true after turns have ended. */
bool turn_is_on(void);
bool turn_is_for(const void *caller);
bool turn_is_found(const void *caller);

/* Returns whether the caller needs the turn, and isn't a child of vfork: that one has its
 * parent's. */
bool turn_is_own(const void *caller);

/* Returns whether another thread waits for files in the kernel. */
bool turn_is_waited(void);

/* Waits until this thread has the turn, if the caller needs it, and counts the call. Changes no
 * errno. Returns whether the thread has the turn now: what it has found by its call may be less
 * than there is, if it or a handler had to wait. The other gives the turn back first. */
bool turn_need(const void *caller);
void turn_pass(const void *caller);

/* The same before a call: it isn't counted, and most threads have the turn. A handler may not, and
 * a thread that has waited by a call that isn't covered. After the other, the thread needs the next
 * turn, and so do its handlers. */
void turn_have(const void *caller);
void turn_give(const void *caller);

/* A time of a clock until which a thread waits. */
struct limit {
	clockid_t clock;
	const struct timespec *time;
};

/* How a wait for a lock has ended. */
enum block_end { BLOCK_UNLOCKED, BLOCK_INTERRUPTED, BLOCK_LATE };

/* Waits until a lock was unlocked, or a handler has run, or a time has come if there is a limit,
 * and then for the turn. In the wait, the thread is cancelled if `is_cancelled`. */
enum block_end turn_block(uint64_t key, bool is_cancelled, const struct limit *limit);

/* Waits until something is there, as a function says that looks: it changes nothing. Then waits for
 * the turn, when it may be gone again. */
enum block_end turn_look(bool (*is_there)(void *what), void *what, const struct limit *limit);

/* Lets the threads be ready that wait for a lock. */
void turn_unblock(uint64_t key);

/* Lists this thread as one that waits for a condition variable. Returns NULL if the list is
 * full. */
struct parked *turn_enter_wait(uint64_t key);

/* Waits until the entry is signalled, or for a time. Returns whether the time has come. The thread
 * may be cancelled here. */
bool turn_wait(struct parked *entry, const struct limit *limit);

/* Frees the entry. Returns whether it was signalled. */
bool turn_leave_wait(struct parked *entry);

/* Signals the thread that has waited longest, or all. */
void turn_signal(uint64_t key, bool are_all);

/* Returns another key for each condition variable that processes share. */
uint32_t turn_next_shared(void);

/* Returns the number of this thread. */
int32_t turn_thread(void);

#endif
