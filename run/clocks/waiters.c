/* SPDX-License-Identifier: MIT OR Apache-2.0 */
/* waiters.c - the list of the threads that wait, and how they are woken. */
#define _GNU_SOURCE
#include "waiters.h"

#include <sys/stat.h>
#include <unistd.h>

/* The `home` of this thread's entries. */
static _Thread_local uint32_t own_home;

/* How often a process has forked since it is one of tkrun's. */
static uint32_t forks;

void waiters_forked(void)
{
	forks++;
}

uint32_t waiters_forks(void)
{
	return forks;
}

/* Returns the same owner with another thread. */
static uint64_t with_thread(uint64_t owner, int32_t thread)
{
	return (owner & ~(uint64_t)UINT32_MAX) | (uint32_t)thread;
}

/* Gives an entry from one owner to the next. Returns false if it isn't the first
 * one's any more. */
static bool pass_on(struct waiter *waiter, uint64_t owner, uint64_t next)
{
	return atomic_compare_exchange_strong(&waiter->owner, &owner, next);
}

void waiter_free(struct waiter *waiter, uint64_t owner)
{
	pass_on(waiter, owner, with_thread(owner, 0));
}

/* Takes an entry for a thread if it is free: for minus the thread, since the time isn't
 * written yet. */
static bool take_entry(struct control *control, uint32_t index, int32_t thread,
		       struct ticket *ticket)
{
	struct waiter *waiter = &control->waiters[index];
	uint32_t count = atomic_load(&control->waiters_count);
	uint64_t owner;

	/* tkrun looks at this entry too, before it is taken */
	while (count <= index &&
	       !atomic_compare_exchange_weak(&control->waiters_count, &count,
					     index + 1))
		;
	owner = atomic_load(&waiter->owner);
	ticket->owner = with_thread(owner + (UINT64_C(1) << 32), -thread);
	if (owner_thread(owner) || !pass_on(waiter, owner, ticket->owner))
		return false;
	ticket->waiter = waiter;
	return true;
}

/* Takes the first free entry, or the one that this thread has had before. */
static struct ticket take_waiter(struct control *control, int32_t thread)
{
	static _Thread_local uint32_t last;
	struct ticket ticket = { .forks = forks };

	if (last && take_entry(control, last, thread, &ticket))
		return ticket;
	for (uint32_t i = 0; i < WAITERS_MOST; i++) {
		if (take_entry(control, i, thread, &ticket)) {
			last = i;
			break;
		}
	}
	return ticket;
}

struct ticket waiter_enter_for(struct machine *machine, int32_t thread,
			       uint32_t clock, int64_t sec, uint32_t nsec)
{
	struct ticket ticket = { 0 };
	uint64_t owner;

	if (!machine->control)
		return ticket;
	ticket = take_waiter(machine->control, thread);
	if (!ticket.waiter) {
		if (machine->shared->kind == COUNTER_SLEEPS)
			atomic_fetch_or(&machine->control->host_waits,
					1U << HOST_UNLISTED);
		return ticket;
	}
	ticket.waiter->clock = clock;
	ticket.waiter->sec = sec;
	ticket.waiter->nsec = nsec;
	ticket.waiter->home = own_home;
	atomic_store(&ticket.waiter->slice_end, 0);
	owner = with_thread(ticket.owner, thread);
	if (pass_on(ticket.waiter, ticket.owner, owner))
		ticket.owner = owner;
	return ticket;
}

struct ticket waiter_enter(struct machine *machine, uint32_t clock, int64_t sec,
			   uint32_t nsec)
{
	if (machine->shared->kind != COUNTER_SLEEPS)
		return (struct ticket){ 0 };
	return waiter_enter_for(machine, own_thread(), clock, sec, nsec);
}

struct ticket waiter_enter_follower(struct machine *machine)
{
	struct ticket ticket = waiter_enter(machine, CLOCK_OF_NONE, 0, 0);

	if (ticket.waiter) {
		atomic_store(&ticket.waiter->is_alone, false);
		own_home = (uint32_t)(ticket.waiter -
				      machine->control->waiters) + 1;
	}
	return ticket;
}

bool waiter_is_alone(const struct ticket *ticket)
{
	return ticket->waiter && atomic_load(&ticket->waiter->is_alone);
}

void waiter_begin_slice(const struct ticket *ticket, uint64_t end)
{
	if (!ticket->waiter)
		return;
	atomic_store(&ticket->waiter->slice_end, end);
	atomic_fetch_add(&ticket->waiter->slices, 1);
}

void waiter_let_signal(const struct ticket *ticket)
{
	atomic_store(&ticket->waiter->process, getpid());
	atomic_store(&ticket->waiter->signal,
		     with_thread(ticket->owner, SIGNAL_LET));
}

bool waiter_let_none(const struct ticket *ticket)
{
	struct waiter *waiter = ticket->waiter;
	uint64_t none = with_thread(ticket->owner, SIGNAL_NOT), now;

	now = atomic_load(&waiter->signal);
	while (ticket->forks == forks && with_thread(now, SIGNAL_NOT) == none) {
		if (atomic_compare_exchange_strong(&waiter->signal, &now, none))
			return owner_thread(now) != SIGNAL_SENT;
	}
	return true;
}

bool waiter_got_signal(const struct ticket *ticket)
{
	uint64_t sent = with_thread(ticket->owner, SIGNAL_SENT);

	return ticket->forks == forks &&
	       atomic_compare_exchange_strong(
		       &ticket->waiter->signal, &sent,
		       with_thread(ticket->owner, SIGNAL_LET));
}

bool waiter_has_signal(const struct waiter *waiter, uint64_t owner)
{
	uint64_t now = atomic_load(&waiter->signal);

	return now == with_thread(owner, SIGNAL_LET) ||
	       now == with_thread(owner, SIGNAL_SENT);
}

uint64_t waiters_space(void)
{
	struct stat status;

	return host_call(SYS_stat, (long)"/proc/self/ns/pid", (long)&status, 0, 0, 0, 0)
		       ? 0
		       : status.st_ino;
}

bool waiters_are_found(const struct machine *machine)
{
	static _Atomic uint64_t known; /* forks, and in two bits the answer */
	uint64_t now = atomic_load(&known);

	if (!machine->control)
		return false;
	if (!now || now >> 2 != forks) {
		now = (uint64_t)forks << 2 | 2 |
		      (waiters_space() == machine->control->pid_space);
		atomic_store(&known, now);
	}
	return now & 1;
}

void waiters_forget(struct machine *machine, int32_t thread)
{
	struct control *control = machine->control;
	uint32_t count = control ? atomic_load(&control->waiters_count) : 0;

	for (uint32_t i = 0; i < count; i++) {
		struct waiter *waiter = &control->waiters[i];
		uint64_t owner = atomic_load(&waiter->owner);
		int32_t found = owner_thread(owner);

		if (found == thread || found == -thread)
			waiter_free(waiter, owner);
	}
}

void waiter_leave(struct ticket *ticket)
{
	if (ticket->waiter && ticket->forks == forks)
		waiter_free(ticket->waiter, ticket->owner);
	ticket->waiter = NULL;
}

/* A process of another user can't: its threads look now and then. tkrun soon sees that the
 * clocks have changed, and wakes the listed ones whose time has come. */
void machine_wake(struct machine *machine)
{
	if (!machine->control)
		return;
	atomic_fetch_add(&machine->shared->generation, 1);
	host_futex_wake(&machine->shared->generation);
}

static void wake_sleeper(struct control *control, struct waiter *waiter)
{
	uint32_t home = waiter->home;

	if (home && home <= WAITERS_MOST)
		waiter = &control->waiters[home - 1];
	atomic_fetch_add(&waiter->changes, 1);
	host_futex_wake(&waiter->changes);
}

/* Sends a waiter's signal, unless the last one is still on its way. */
static void send_signal(struct waiter *waiter, uint64_t owner)
{
	uint64_t let = with_thread(owner, SIGNAL_LET),
		 sent = with_thread(owner, SIGNAL_SENT);

	if (atomic_compare_exchange_strong(&waiter->signal, &let, sent) &&
	    host_call(SYS_tgkill, atomic_load(&waiter->process),
		      owner_thread(owner), WAKE_SIGNAL, 0, 0, 0))
		atomic_compare_exchange_strong(&waiter->signal, &sent, let);
}

void waiter_wake(struct control *control, struct waiter *waiter, uint64_t owner)
{
	if (waiter_has_signal(waiter, owner))
		send_signal(waiter, owner);
	else
		wake_sleeper(control, waiter);
}

