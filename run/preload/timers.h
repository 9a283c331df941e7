/* SPDX-License-Identifier: MIT OR Apache-2.0 */
/*
 * timers.h - the timers of a process. Each is a timer of the host's MONOTONIC,
 * which is armed for the time that is left. A separate thread arms all of them
 * again after each command to the clocks. With a counter of sleeps, that thread
 * waits for the timers, and lets them expire.
 */
#ifndef TIMERS_H
#define TIMERS_H

#include "calls.h"

enum timer_kind { TIMER_NONE, TIMER_FILE, TIMER_POSIX, TIMER_ALARM };

/* A timer. `next` is the time on `clock` at which it expires next; with a
 * period, the host may have let it expire at later ones already. */
struct timer {
	struct timer *link; /* the next one of the table */
	enum timer_kind kind;
	bool is_armed;
	bool is_stale; /* the clocks have changed since the host's was armed */
	bool is_held;  /* the host's isn't armed: its time brings nothing */
	intptr_t number; /* of its file, or the C library's number of the timer */
	int own_clock;	 /* the clock it was created with */
	int clock; /* the same, or MONOTONIC for a span of REALTIME or TAI */
	int signal, thread; /* of a timer with a number; 0: no signal, the process */
	uint64_t overruns;  /* since its last signal */
	bool has_expired;   /* since this signal was last not pending */
	struct timespec next;
	uint64_t period; /* ns; 0: it expires once */
	struct ticket ticket;
};

/* Take and give back the lock of the timers. A handler may set a timer, so
 * signals are blocked in between. All calls below need the lock, unless they say that they take
 * it. */
void timers_lock(sigset_t *saved);
void timers_unlock(const sigset_t *saved);

/* Returns the first entry of the table, which `link` continues. */
struct timer *timers_all(void);

/* Returns the timer of a file or of a number, or NULL. The timer of alarm has the number 0. */
struct timer *timer_find(enum timer_kind kind, intptr_t number);

/* Return the file of a TIMER_FILE, and the number of a TIMER_POSIX. */
static inline int timer_file(const struct timer *timer)
{
	return (int)timer->number;
}

static inline timer_t timer_posix(const struct timer *timer)
{
	return (timer_t)timer->number;
}

/* Takes a free entry, or one whose file was closed. Returns NULL if memory is
 * missing. */
struct timer *timer_add(enum timer_kind kind, intptr_t number, int clock);

/* Makes an entry free. */
void timer_remove(struct timer *timer);

/* Prepares the table for all forks of the process. */
void timers_hook_forks(void);

/* Stores what is left of a timer, and its period. */
void timer_store(struct machine *m, struct timer *timer,
		 struct itimerspec *out);

/* Sets a timer. Returns 0, or -1 with errno. */
int timer_set(struct machine *m, struct timer *timer, bool is_absolute,
	      const struct itimerspec *in);

/* What timers_set and timers_get return for a timer of the host's. */
enum { TIMER_OF_HOST = 1 };

/* Take the lock. The first sets a timer of the table, and stores what was left of it. The other
 * only stores that. They return 0, or -1 with errno, or TIMER_OF_HOST. */
int timers_set(enum timer_kind kind, intptr_t number, bool is_absolute,
	       const struct itimerspec *in, struct itimerspec *out);
int timers_get(enum timer_kind kind, intptr_t number, struct itimerspec *out);

/* Arms the host's timer anew if it is stale. With a counter of sleeps, lets the
 * timer expire if its time has come. Removes a timer whose file was closed. */
void timer_follow(struct machine *m, struct timer *timer);

/* Sets the alarm that the process has set before it executed this program, with a
 * counter of sleeps. It expires once. */
void timers_resume(struct machine *m);

/* Starts the thread that follows the clocks for all timers, if there is none. Returns
 * false if it can't. */
bool follow_start(void);

/* Lets that thread list a time that has been set, with a counter of sleeps. */
void follow_wake(struct machine *m);

/* Notes in a new child that it has no such thread. */
void follow_no_more(void);

/* Makes the system call timer_create, with a timer of the table. Returns 0, or
 * -1 with errno. */
long create_kernel_timer(clockid_t clock, struct sigevent *event, int *out);

/* Returns glibc's number of a timer of the kernel's. */
static inline timer_t kernel_timer(int number)
{
	return (timer_t)(intptr_t)number;
}

/* Returns the time that is `nanos` ns later. */
static inline struct timespec later(struct timespec time, uint64_t nanos)
{
	nanos += (uint64_t)time.tv_nsec;
	return (struct timespec){ time.tv_sec + (time_t)(nanos / NANOS),
				  (long)(nanos % NANOS) };
}

#endif
