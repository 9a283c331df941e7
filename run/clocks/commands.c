/* SPDX-License-Identifier: MIT OR Apache-2.0 */
/* commands.c - how a process commands the clocks, and publishes them. */
#define _GNU_SOURCE
#include "waiters.h"

#include "counter.h"
#include "file_times.h"
#include "requests.h"
#include "rows.h"
#include "saved_words.h"

#include <errno.h>

enum { LOCK_NAP_NANOS = 20000 }; /* between two tries to take the lock */

static const struct called *present_clocks(struct control *control)
{
	return &control->clocks[atomic_load(&control->present) % 2];
}

/* Returns the leap second that the clocks will make: 1 if a second is inserted, -1 if one is
 * deleted, or 0. No call of the library says only that, so this stores all words of the clocks. */
static int32_t leap_of(const struct tkc_ntp *clocks)
{
	uint64_t words[TKC_NTP_SAVED_WORDS];

	tkc_ntp_save(words, clocks);
	return (words[SAVED_STATE] == TKC_TIME_INS) -
	       (words[SAVED_STATE] == TKC_TIME_DEL);
}

/* Stores the line of each clock. */
static void store_lines(struct shared_lines *lines, const struct tkc_snapshot *snapshot)
{
	struct tkc_line line;

	for (uint32_t clock = 0; clock < LINES; clock++)
		if (!tkc_snapshot_line(&line, snapshot, clock))
			line_store(lines->of[clock], &line);
}

/* Publishes the present clocks. The page's copy that isn't read gets their next
 * second and their lines, too. */
static void publish(struct machine *machine)
{
	const struct called *called = present_clocks(machine->control);
	const struct tkc_ntp *clocks = &called->ntp;
	struct tkc_page *page = &machine->shared->page;
	uint64_t sequence = atomic_load(&page->sequence) | 1, reading = 0;
	struct next_second *next =
		&machine->shared->seconds[(sequence + 1) / 2 % 2];
	struct tkc_snapshot snapshot;
	bool is_known = !tkc_ntp_next_second(&reading, clocks);
	int32_t leap, was;

	tkc_ntp_snapshot(&snapshot, clocks);
	leap = leap_of(clocks);
	atomic_store(&next->reading, reading);
	atomic_store(&next->is_known, is_known);
	atomic_store(&next->calls, called->calls);
	store_lines(&machine->shared->lines[(sequence + 1) / 2 % 2], &snapshot);
	was = atomic_exchange(&machine->shared->leap, leap);
	tkc_page_publish(page, &snapshot);
	if (leap != was)
		machine_wake(machine);
}

/* Notes what REALTIME is now, for the times of files. */
static void note_moment(struct machine *machine, bool is_set)
{
	struct tkc_snapshot snapshot;

	if (!machine->shared->has_file_times)
		return;
	tkc_ntp_snapshot(&snapshot, &present_clocks(machine->control)->ntp);
	file_times_note(machine, &snapshot, is_set);
}

void machine_init_clocks(struct machine *machine, const struct tkc_ntp *clocks)
{
	struct tkc_snapshot snapshot;

	machine->control->clocks[0] = (struct called){ .ntp = *clocks };
	tkc_ntp_snapshot(&snapshot, clocks);
	tkc_page_init(&machine->shared->page, &snapshot);
	tkc_page_begin(&machine->shared->page);
	publish(machine);
	note_moment(machine, false);
}

/* After a writer has died, publishes the present clocks again. The caller has
 * the lock. */
static void recover(struct machine *machine)
{
	tkc_page_begin(&machine->shared->page);
	publish(machine);
	atomic_fetch_add(&machine->control->recovered, 1);
	pthread_mutex_consistent(&machine->control->lock);
}

/* A handler that reads a clock while its thread writes would wait forever, so
 * signals are blocked. Nobody waits in the kernel for the lock: if a waiter of
 * a robust mutex is killed when it is woken, nobody else may be woken. */
void machine_lock(struct machine *machine, sigset_t *saved)
{
	sigset_t all;
	int error;

	sigfillset(&all);
	pthread_sigmask(SIG_SETMASK, &all, saved);
	for (unsigned int turns = 1;; turns++) {
		error = pthread_mutex_trylock(&machine->control->lock);
		if (error != EBUSY)
			break;
		if (turns % 128)
			__builtin_ia32_pause();
		else
			host_nap(LOCK_NAP_NANOS);
	}
	if (error == EOWNERDEAD)
		recover(machine);
}

void machine_unlock(struct machine *machine, const sigset_t *saved)
{
	pthread_mutex_unlock(&machine->control->lock);
	pthread_sigmask(SIG_SETMASK, saved, NULL);
}

void machine_try_recover(struct machine *machine)
{
	sigset_t all, saved;
	int error;

	if (!machine->control)
		return; /* tkrun does it at its next update */
	sigfillset(&all);
	pthread_sigmask(SIG_SETMASK, &all, &saved);
	error = pthread_mutex_trylock(&machine->control->lock);
	if (error == EOWNERDEAD)
		recover(machine);
	if (!error || error == EOWNERDEAD)
		pthread_mutex_unlock(&machine->control->lock);
	pthread_sigmask(SIG_SETMASK, &saved, NULL);
}

/* Records what became of orders at a reading: all of them if they were
 * accepted, or a single one that was refused. */
static void record_orders(struct machine *machine, const struct order *orders,
			  size_t count, enum tkc_code code, uint64_t calls,
			  uint64_t reading)
{
	if (!machine->control->rows.every || (code && count > 1))
		return;
	for (size_t i = 0; i < count; i++) {
		struct record_row row = { .kind = orders[i].command,
					  .code = code,
					  .nsec = orders[i].nsec,
					  .calls = calls - (count - 1 - i),
					  .reading = reading,
					  .number = orders[i].number };

		rows_add(machine, &row);
	}
}

/* Makes changed clocks the clocks of all, by one store. */
static void switch_clocks(struct machine *machine,
			  const struct called *changed)
{
	struct control *control = machine->control;
	uint32_t other = atomic_load(&control->present) + 1;

	control->clocks[other % 2] = *changed;
	atomic_store(&control->present, other);
}

/* Whether a command is a request to the discipline, which may give the clocks
 * another rate at each later second. */
static bool is_steering(uint32_t command)
{
	return command == TKC_CMD_FREQ || command == TKC_CMD_TICK;
}

static bool are_updates(const struct order *orders, size_t count)
{
	while (count && orders[count - 1].command == TKC_CMD_UPDATE)
		count--;
	return !count;
}

/* Applies the orders to a copy of the clocks. */
enum tkc_code machine_apply(struct machine *machine, const struct order *orders,
			    size_t count)
{
	struct called changed = *present_clocks(machine->control);
	enum tkc_code code = TKC_OK;
	bool is_update = are_updates(orders, count), is_steered = false;
	uint64_t reading;

	if (!is_update)
		file_times_wait(machine, false);
	tkc_page_begin(&machine->shared->page);
	reading = machine_reading(machine->shared);
	for (size_t i = 0; i < count && !code; i++) {
		code = tkc_ntp_apply(&changed.ntp, reading, orders[i].command,
				     orders[i].number, orders[i].nsec);
		is_steered = is_steered || is_steering(orders[i].command);
	}
	if (code)
		changed = *present_clocks(machine->control);
	else
		changed.calls += count;
	if (!code && is_steered)
		rows_steer(&machine->control->rows);
	record_orders(machine, orders, count, code, changed.calls, reading);
	if (!code)
		switch_clocks(machine, &changed);
	publish(machine);
	note_moment(machine, !is_update);
	atomic_fetch_add(code ? &machine->control->refused
			      : &machine->control->accepted,
			 count);
	if (!code && !is_update)
		machine_wake(machine);
	return code;
}

/* A refused request has made no step: after one, TAI is far below its limit. */
enum tkc_code machine_adjust(struct machine *machine, struct timex *timex,
			     uint32_t *state)
{
	struct control *control = machine->control;
	struct called changed = *present_clocks(control);
	bool only_reads = request_only_reads(timex);
	struct record_row row = { .kind = only_reads ? ROW_ASK : ROW_REQUEST };
	struct timex in = *timex;

	if (!only_reads)
		file_times_wait(machine, false);
	tkc_page_begin(&machine->shared->page);
	row.reading = machine_reading(machine->shared);
	row.code = tkc_adjtimex((struct tkc_timex *)timex, state, &changed.ntp,
				row.reading);
	changed.calls += !row.code && !only_reads;
	row.calls = changed.calls;
	rows_add_request(machine, &row, &in, timex, *state);
	if (!row.code && !only_reads)
		switch_clocks(machine, &changed);
	publish(machine);
	if (only_reads)
		return row.code;
	note_moment(machine, true);
	atomic_fetch_add(row.code ? &control->refused : &control->accepted, 1);
	if (!row.code)
		machine_wake(machine);
	return row.code;
}

_Static_assert(sizeof(struct timex) == sizeof(struct tkc_timex), "layout");

int machine_adjtimex(struct machine *machine, struct timex *timex)
{
	enum tkc_code code;
	uint32_t state = 0;
	sigset_t saved;

	if (!machine->control)
		return -EPERM;
	if (!request_only_reads(timex) && machine_denies_set(machine))
		return request_is_faulty(timex) ? -EINVAL : -EPERM;
	machine_lock(machine, &saved);
	code = machine_adjust(machine, timex, &state);
	machine_unlock(machine, &saved);
	return code ? -machine_error(code) : (int)state;
}

enum tkc_code machine_command(struct machine *machine, uint32_t command,
			      int64_t number, uint32_t nsec)
{
	struct order order = { 0, command, nsec, number };
	enum tkc_code code;
	sigset_t saved;

	machine_lock(machine, &saved);
	code = machine_apply(machine, &order, 1);
	machine_unlock(machine, &saved);
	return code;
}
