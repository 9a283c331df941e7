/* SPDX-License-Identifier: MIT OR Apache-2.0 */
/* moves.c - when a counter of sleeps has moved, by the host's REALTIME: for the stamps of packets. */
#define _GNU_SOURCE
#include "machine.h"

/* Returns the clocks' MONOTONIC in ns, or 0 if it has ended. */
static uint64_t monotonic(struct machine *machine)
{
	struct tkc_snapshot snapshot;
	struct tkc_time now;
	uint64_t reading;

	if (machine_look(machine, &snapshot, &reading) ||
	    tkc_snapshot_get(&now, &snapshot, TKC_CLOCK_MONOTONIC, reading))
		return 0;
	return (uint64_t)now.sec * NANOS + now.nsec;
}

void moves_note(struct machine *machine)
{
	struct moves *moves = &machine->control->moves;
	uint64_t count = atomic_load(&moves->count);
	struct move *move = &moves->of[count % MOVES_MOST];

	if (!machine->shared->has_stamps)
		return;
	atomic_store(&move->nanos, monotonic(machine));
	atomic_store(&move->host, host_nanos(CLOCK_REALTIME));
	atomic_store(&moves->count, count + 1);
}

bool moves_find(struct machine *machine, uint64_t host, uint64_t *age)
{
	const struct moves *moves = &machine->control->moves;
	uint64_t count = atomic_load(&moves->count), at = count, nanos = 0;

	while (at && count - at < MOVES_MOST - 1) {
		const struct move *move = &moves->of[--at % MOVES_MOST];

		nanos = atomic_load(&move->nanos);
		if (atomic_load(&move->host) <= host)
			break;
	}
	*age = monotonic(machine) - nanos;
	return count && atomic_load(&moves->count) - at < MOVES_MOST;
}
