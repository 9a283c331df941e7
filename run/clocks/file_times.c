/* SPDX-License-Identifier: MIT OR Apache-2.0 */
/* file_times.c - times of files, with --file-times. */
#define _GNU_SOURCE
#include "file_times.h"

#include <stdlib.h>

enum {
	NAP_NANOS = 100000,
	NEAR_NANOS = 200000, /* of the host: on a counter that runs, moments are as exact */
	LATER_NANOS = 100000000,
	PROBES_MOST = 64,
	TRIES_MOST = 10,
	HASH_BITS = 16,
};

/* A program may set a file to a time that the host's clock reaches later. Times of the next day are
 * noted. */
static const int64_t SOON_NANOS = 86400 * (int64_t)NANOS,
		     SEC_MOST = 9000000000; /* the last second whose ns are a number */

static int64_t nanos_of(const struct timespec *time)
{
	return time->tv_sec * NANOS + time->tv_nsec;
}

/* Returns the host's REALTIME of the last tick, in ns. */
static int64_t last_tick(void)
{
	struct timespec now = { 0 };

	host_gettime_by_call(CLOCK_REALTIME_COARSE, &now);
	return nanos_of(&now);
}

static int64_t host_now(void)
{
	return (int64_t)host_nanos(CLOCK_REALTIME);
}

/* Since Linux 6.13 a file may have the exact time. It ends if the host's clock is set back. */
void file_times_wait(const struct machine *machine, bool may_sleep)
{
	int64_t before;

	if (!machine->shared->has_file_times ||
	    atomic_load(&machine->shared->file_times->count) == MOMENTS_MOST)
		return;
	before = host_now();
	while (last_tick() <= before && host_now() >= before) {
		if (may_sleep)
			host_nap(NAP_NANOS);
		else
			host_call(SYS_sched_yield, 0, 0, 0, 0, 0, 0);
	}
}

/* Returns by how much REALTIME moves in a span of the host. */
static int64_t passed(const struct shared_page *shared, int64_t span)
{
	return shared->kind == COUNTER_SLEEPS ? 0 : (int64_t)((double)span * shared->speed);
}

/* Returns REALTIME at a time of the host's after a moment, as it goes on from there. */
static int64_t real_at(const struct shared_page *shared, const struct moment *moment,
		       int64_t host)
{
	return atomic_load(&moment->real) + passed(shared, host - atomic_load(&moment->host));
}

/* Adds a moment, which takes the place of those that aren't before it. */
static void add_moment(struct machine *machine, int64_t host, int64_t real)
{
	struct file_times *times = machine->shared->file_times;
	uint32_t count = atomic_load(&times->count);

	while (count && atomic_load(&times->of[count - 1].host) >= host)
		atomic_store(&times->count, --count);
	if (count == MOMENTS_MOST) {
		atomic_fetch_or(&machine->control->host_waits, 1U << HOST_FILES);
		return;
	}
	atomic_store(&times->of[count].host, host);
	atomic_store(&times->of[count].real, real > 0 ? real : 0);
	atomic_store(&times->count, count + 1);
}

/* Reads the host's clock and the counter, as close together as a few tries give. */
static int64_t read_both(const struct machine *machine, uint64_t *reading)
{
	int64_t host;
	int tries = 0;

	do {
		host = host_now();
		*reading = machine_reading(machine->shared);
	} while (host_now() - host > NEAR_NANOS && ++tries < TRIES_MOST);
	return host;
}

/* Returns whether the last moment says what REALTIME is. */
static bool is_known(const struct shared_page *shared, int64_t host, int64_t real)
{
	const struct file_times *times = shared->file_times;
	uint32_t count = atomic_load(&times->count);
	int64_t most = passed(shared, NEAR_NANOS + (int64_t)shared->nanos_per_cycle);

	return count && llabs(real_at(shared, &times->of[count - 1], host) - real) <= most;
}

/* Files have the time of the last tick for a while yet, also after a command, or one since. What
 * only corrects the list is for files that are written later: those that were shown keep their
 * time. */
void file_times_note(struct machine *machine, const struct tkc_snapshot *snapshot, bool is_set)
{
	const struct shared_page *shared = machine->shared;
	bool is_still = shared->kind == COUNTER_SLEEPS;
	int64_t tick = last_tick(), host, real;
	struct tkc_time now;
	uint64_t reading;

	host = read_both(machine, &reading);
	if (tkc_snapshot_get(&now, snapshot, TKC_CLOCK_REALTIME, reading))
		return;
	real = now.sec * NANOS + now.nsec;
	if (is_known(shared, host, real))
		return;
	if (!is_set && !is_still && atomic_load(&shared->file_times->count)) {
		add_moment(machine, host + LATER_NANOS, real + passed(shared, LATER_NANOS));
		return;
	}
	add_moment(machine, tick, is_set ? real : real - passed(shared, host - tick));
	if (!is_still)
		add_moment(machine, host, real);
}

/* Returns the place of a time that was set, or the free one that it would have, or NULL if all are
 * taken. */
static _Atomic int64_t *stated_place(const struct machine *machine, int64_t nanos)
{
	_Atomic int64_t *places = machine->shared->file_times->stated;
	uint64_t hash = ((uint64_t)nanos * UINT64_C(0x9e3779b97f4a7c15)) >> (64 - HASH_BITS);

	for (uint64_t i = hash; i < hash + PROBES_MOST; i++) {
		int64_t there = atomic_load(&places[i % STATED_MOST]);

		if (!there || there == nanos)
			return &places[i % STATED_MOST];
	}
	return NULL;
}

static bool is_stated(const struct machine *machine, int64_t nanos)
{
	const _Atomic int64_t *place = stated_place(machine, nanos);

	return place && atomic_load(place);
}

void file_times_state(const struct machine *machine, const struct timespec *time)
{
	int64_t nanos = nanos_of(time), none = 0;
	_Atomic int64_t *place;

	if (!machine->control || time->tv_sec < 0 || time->tv_sec > SEC_MOST ||
	    nanos < atomic_load(&machine->shared->file_times->of[0].host) ||
	    nanos > host_now() + SOON_NANOS)
		return;
	do {
		none = 0;
		place = stated_place(machine, nanos);
	} while (place && !atomic_compare_exchange_strong(place, &none, nanos) && none != nanos);
}

/* Returns REALTIME at a time of the host's since the first moment. It stays from one moment to the
 * next if they have the same: from the last tick before a command that sets it to the present. */
static int64_t noted_at(const struct shared_page *shared, int64_t host)
{
	const struct file_times *times = shared->file_times;
	uint32_t first = 0, count = atomic_load(&times->count), end = count, middle;
	int64_t real;

	while (end - first > 1) {
		middle = first + (end - first) / 2;
		if (atomic_load(&times->of[middle].host) <= host)
			first = middle;
		else
			end = middle;
	}
	real = atomic_load(&times->of[first].real);
	if (first + 1 < count && atomic_load(&times->of[first + 1].real) == real)
		return real;
	return real_at(shared, &times->of[first], host);
}

void file_times_convert(const struct machine *machine, struct timespec *time)
{
	const struct shared_page *shared = machine->shared;
	int64_t host = nanos_of(time), real;

	if (time->tv_sec < 0 || time->tv_sec > SEC_MOST ||
	    host < atomic_load(&shared->file_times->of[0].host) ||
	    host > host_now() || is_stated(machine, host))
		return;
	real = noted_at(shared, host);
	*time = (struct timespec){ real / NANOS, real % NANOS };
}
