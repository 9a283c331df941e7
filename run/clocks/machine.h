/* SPDX-License-Identifier: MIT OR Apache-2.0 */
/* machine.h - one set of clocks, which all processes of a tkrun share, in the files of shared.h. */
#ifndef MACHINE_H
#define MACHINE_H

#include "host.h"
#include "shared.h"

#include <pthread.h>
#include <signal.h>
#include <stdatomic.h>
#include <stdbool.h>
#include <stddef.h>
#include <sys/syscall.h>
#include <sys/time.h>
#include <sys/timex.h>
#include <tkcore_page.h>

struct machine {
	struct shared_page *shared;
	struct control *control; /* NULL in a process of another user */
	struct chunks *chunks;	 /* where the record is mapped, or NULL: rows.h */
};

/* A command with its numbers, and the reading at which a script wants it. */
struct order {
	uint64_t reading;
	uint32_t command, nsec;
	int64_t number;
};

/* Maps the files of a folder, or those that tkrun gives this process if it is NULL.
 * Returns false if they aren't a machine's. */
bool machine_attach(struct machine *machine, const char *folder);

/* Makes the lock of a new control file. */
void machine_init_lock(struct control *control);

/* Returns the counter's reading. */
uint64_t machine_reading(const struct shared_page *shared);

/* Returns the same, and is faster. Loads that follow may run before the counter
 * is read, unless their address depends on the reading. */
uint64_t machine_early_reading(const struct shared_page *shared);

/* Returns the TSC, or MONOTONIC_RAW in ns. */
uint64_t machine_host(enum counter_kind kind);

/* The call that reads a clock. */
enum read_call {
	BY_CLOCK_GETTIME,
	BY_GETTIMEOFDAY,
	BY_TIME,
	BY_TIMESPEC_GET,
	BY_FTIME,
	BY_WAIT,  /* a wait, a sleep or a timer, for its own time */
	BY_STAMP, /* of a packet */
	READ_CALLS,
};

/* Reads a clock now. Returns the codes of tkc_page_now. */
enum tkc_code machine_read(struct machine *machine, uint32_t clock,
			   struct tkc_time *out, enum read_call call);

/* Returns the number of a clock that the machine answers for, or -1 if the
 * host does. */
int machine_clock(clockid_t clock);

/* Reads the latest snapshot, and the counter in its second. Returns the codes
 * of tkc_page_look. */
enum tkc_code machine_look(struct machine *machine, struct tkc_snapshot *out,
			   uint64_t *reading);

/* Lets this thread of tkrun read these clocks next: what it has kept of other nodes isn't theirs. */
void machine_turn_to(const struct machine *machine);

/* Counts the reads of this thread that aren't counted yet. */
void machine_count_rest(struct machine *machine);

/* Takes the lock of the clocks, with all signals blocked, and gives it back. */
void machine_lock(struct machine *machine, sigset_t *saved);
void machine_unlock(struct machine *machine, const sigset_t *saved);

/* Makes clocks those of the machine, with their first publication. */
void machine_init_clocks(struct machine *machine,
			 const struct tkc_ntp *clocks);

/* Takes over from a process that died amid a command, if one did. */
void machine_try_recover(struct machine *machine);

/* Applies all orders at one reading, or none of them. The caller has the lock.
 * Returns the code of the first that is refused. */
enum tkc_code machine_apply(struct machine *machine, const struct order *orders,
			    size_t count);

/* Takes the lock and applies one command. */
enum tkc_code machine_command(struct machine *machine, uint32_t command,
			      int64_t number, uint32_t nsec);

/* Returns whether a process may not set the clocks. */
bool machine_denies_set(const struct machine *machine);

/* Returns the errno of a code: EAGAIN after a SUSPEND, or EINVAL, or 0. */
int machine_error(enum tkc_code code);

/* Set REALTIME, or as settimeofday does, where NULL sets nothing. Return 0 or an
 * errno. */
int machine_set_time(struct machine *machine, int64_t sec, int64_t nsec);
int machine_set_micros(struct machine *machine, const struct timeval *time,
		       const struct timezone *zone);

/* Stores the time zone. */
void machine_zone(const struct machine *machine, struct timezone *out);

/* Returns the errno of clock_adjtime for a clock: 0 if it may be asked for. */
int machine_adjust_error(clockid_t clock);

/* Does what a struct timex asks for, and stores the reply and the state of the
 * clocks, unless it is refused. The caller has the lock. */
enum tkc_code machine_adjust(struct machine *machine, struct timex *timex,
			     uint32_t *state);

/* Takes the lock, and does the same for a process. Returns the state of the
 * clocks, or minus an errno. */
int machine_adjtimex(struct machine *machine, struct timex *timex);

/* Returns whether the clocks are asleep after a SUSPEND. */
bool machine_is_asleep(const struct machine *machine);

/* Returns whether a reading is at or past another. */
static inline bool is_past(const struct shared_page *shared, uint64_t reading,
			   uint64_t other)
{
	return ((reading - other) & shared->mask) <= shared->mask / 2;
}

/* Stores the time of a clock that is `span` later. Returns false if the clock has
 * no time, or the span is none. */
bool machine_after(struct machine *machine, int clock,
		   const struct timespec *span, struct timespec *out);

/* Returns a time of a clock minus now, and 0 if that is negative. */
struct timespec machine_until(struct machine *machine, int clock,
			      const struct timespec *time);

/*
 * Returns the cycles until a clock reaches a time: 0 if it has, and NEVER if no
 * cycles bring it there. If the time is further away than half of the counter's
 * range, they are fewer, and the caller asks again after them.
 */
uint64_t machine_cycles_left(struct machine *machine, uint32_t clock,
			     int64_t sec, uint32_t nsec);

/* Returns the same in ns of the host. With COUNTER_SLEEPS, what isn't 0 is
 * NEVER, since no time of the host brings the clocks there. */
uint64_t machine_left(struct machine *machine, uint32_t clock, int64_t sec,
		      uint32_t nsec);

/* Sleeps until a clock reaches a time. Returns 0 or EINTR. */
int machine_sleep(struct machine *machine, uint32_t clock, int64_t sec,
		  uint32_t nsec);

/* Notes that a counter of sleeps has moved, with --stamps. The other stores how long ago it was by
 * MONOTONIC, in ns, that the host's REALTIME was `host`, or at least how long ago the first move was
 * that is still known. It returns false if none is. */
void moves_note(struct machine *machine);
bool moves_find(struct machine *machine, uint64_t host, uint64_t *age);

/* Notes how often this thread has polled the clocks, or has waited for nothing. With
 * COUNTER_SLEEPS, a thousand polls of a counter that doesn't move take 1 us: a thread that
 * waits in a loop would never see it move. */
void machine_polled(struct machine *machine, uint32_t count);

/* Notes that the clocks have changed, and wakes those that aren't listed: the threads that
 * follow the clocks for timers, and sleepers that tkrun doesn't find. */
void machine_wake(struct machine *machine);

#endif
