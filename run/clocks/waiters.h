/* SPDX-License-Identifier: MIT OR Apache-2.0 */
/* waiters.h - the list of the threads that wait for times of the clocks. */
#ifndef WAITERS_H
#define WAITERS_H

#include "machine.h"

/* Wakes a waiter's sleeper, or ends its wait by WAKE_SIGNAL. */
void waiter_wake(struct control *control, struct waiter *waiter, uint64_t owner);

/* A clock that reaches no time. */
#define CLOCK_OF_NONE UINT32_MAX

/* Returns the thread of an owner, or minus the thread, or 0. */
static inline int32_t owner_thread(uint64_t owner)
{
	return (int32_t)(uint32_t)owner;
}

/* Frees an entry, unless it isn't this owner's any more. */
void waiter_free(struct waiter *waiter, uint64_t owner);

/* List this thread as waiting for a time, with COUNTER_SLEEPS, or any thread with any
 * counter. */
struct ticket waiter_enter(struct machine *machine, uint32_t clock, int64_t sec,
			   uint32_t nsec);
struct ticket waiter_enter_for(struct machine *machine, int32_t thread,
			       uint32_t clock, int64_t sec, uint32_t nsec);

/*
 * Lists this thread, which follows the clocks for timers, with COUNTER_SLEEPS. It waits for the
 * `changes` of this entry, also for the times that it lists later. tkrun wakes it when it is the
 * last thread of its process, too: waiter_is_alone.
 */
struct ticket waiter_enter_follower(struct machine *machine);
bool waiter_is_alone(const struct ticket *ticket);

/* Returns whether a waiter is the entry of such a thread. */
static inline bool is_follower(const struct waiter *waiter)
{
	return waiter->clock == CLOCK_OF_NONE;
}

/* Notes until when by the host's ns a thread waits now, if it is listed. */
void waiter_begin_slice(const struct ticket *ticket, uint64_t end);

/* Lets WAKE_SIGNAL end the wait of a ticket of this thread. */
void waiter_let_signal(const struct ticket *ticket);

/* Lets no further signal come. Returns false if one is on its way. */
bool waiter_let_none(const struct ticket *ticket);

/* Notes in the signal's handler that it has come, so that tkrun may send the next one.
 * Returns false if it wasn't for this ticket. */
bool waiter_got_signal(const struct ticket *ticket);

/* Returns whether tkrun may send a waiter's signal, or has sent one. */
bool waiter_has_signal(const struct waiter *waiter, uint64_t owner);

/* Returns the number of this process's PID namespace, or 0. Threads have other numbers
 * in another one. */
uint64_t waiters_space(void);

/* Returns whether tkrun finds the threads of this process, and may wake them. */
bool waiters_are_found(const struct machine *machine);

/* Returns this thread's number. */
static inline int32_t own_thread(void)
{
	return (int32_t)host_call(SYS_gettid, 0, 0, 0, 0, 0, 0);
}

/* Frees the ticket's entry, unless it was freed before. */
void waiter_leave(struct ticket *ticket);

/* Notes in a new child that it has no entries, and returns how often it has. */
void waiters_forked(void);
uint32_t waiters_forks(void);

/* Frees the entries of a thread, which has just executed a program: they are those of
 * a thread that had its number before, or of a handler. */
void waiters_forget(struct machine *machine, int32_t thread);

#endif
