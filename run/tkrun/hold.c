/* SPDX-License-Identifier: MIT OR Apache-2.0 */
/* hold.c - ends turns if a thread keeps its turn while others need it. */
#define _GNU_SOURCE
#include "hold.h"

#include "grant.h"
#include "processes/status.h"

#include <stdio.h>
#include <string.h>
#include <unistd.h>

enum { HOLD_SEC = 5 }; /* of processor time: a thread may spin until others go on */

/* A holder's processor time is read after so long of the host's time, and again. */
static const uint64_t WATCH_NANOS = NANOS;

static uint64_t watched; /* the host's ns of the latest grant, or look at the holder */
static uint64_t used;	 /* ticks of processor time at the first look after a grant, or NEVER */

void hold_begins(void)
{
	watched = host_nanos(CLOCK_MONOTONIC);
	used = NEVER;
}

/* Lets all threads go on. They need no turn any more. */
static void end_turns(struct turns *table)
{
	uint32_t count = atomic_load(&table->count);

	atomic_store(&table->is_off, 1);
	for (uint32_t i = 0; i < count; i++)
		host_futex_wake(&table->parked[i].word);
}

static void name_holder(int32_t thread)
{
	char path[64], name[64] = "";

	snprintf(path, sizeof(path), "/proc/%d/comm", thread);
	proc_read(path, name, sizeof(name));
	name[strcspn(name, "\n")] = 0;
	fprintf(stderr,
		"tkrun: --seed: '%s' (thread %d) runs for %d s while others wait for their turn: "
		"from now on, the order of threads is the host's\n",
		name, thread, HOLD_SEC);
}

/* Returns whether a thread needs the turn. */
static bool is_needed(struct turns *table)
{
	uint32_t count = atomic_load(&table->count);

	for (uint32_t i = 0; i < count; i++) {
		const struct parked *entry = &table->parked[i];

		if (turns_is_parked(entry, atomic_load(&entry->thread), PARKED_READY))
			return true;
	}
	return false;
}

/* Returns the processor time of all threads, in ticks. */
static uint64_t ticks_used(struct run *run)
{
	uint64_t sum = 0;

	if (!tree_scan(&run->tree))
		return 0;
	for (size_t i = 0; i < run->tree.process_count; i++)
		sum += proc_ticks(run->tree.processes[i].process);
	return sum;
}

/* A thread that can't run, or waits for a disk, uses no processor time, so it keeps its turn on a busy
 * machine, and while tkrun is stopped. */
void hold_watch(struct run *run, struct turns *table)
{
	uint64_t now = host_nanos(CLOCK_MONOTONIC), ticks;
	int32_t holder;

	if (now - watched < WATCH_NANOS)
		return;
	watched = now;
	ticks = is_needed(table) ? ticks_used(run) : NEVER;
	if (ticks == NEVER || used == NEVER || ticks < used)
		used = ticks;
	if (ticks - used < HOLD_SEC * (uint64_t)sysconf(_SC_CLK_TCK))
		return;
	holder = atomic_load(&table->holder);
	name_holder(holder ? holder : run->tree.running);
	end_turns(table);
}
