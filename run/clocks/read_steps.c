/* SPDX-License-Identifier: MIT OR Apache-2.0 */
/* read_steps.c - steps of REALTIME that come after a number of reads. */
#include "read_steps.h"

/* Makes the steps that are due after this number of reads, unless another thread has made them. If
 * the thread is killed before, the next read makes them. */
static void make_due(struct machine *machine, uint64_t reads)
{
	struct read_steps *steps = &machine->control->read_steps;
	sigset_t saved;
	uint32_t next;

	machine_lock(machine, &saved);
	for (next = atomic_load(&steps->made);
	     next < steps->count && steps->of[next].reads <= reads; next++) {
		const struct order order = { .command = TKC_CMD_STEP,
					     .number = steps->of[next].sec,
					     .nsec = steps->of[next].nsec };

		machine_apply(machine, &order, 1);
		atomic_store(&steps->made, next + 1);
	}
	machine_unlock(machine, &saved);
}

void read_steps_count(struct machine *machine)
{
	struct read_steps *steps = &machine->control->read_steps;
	uint64_t reads = atomic_fetch_add(&steps->reads, 1) + 1;
	uint32_t next = atomic_load(&steps->made);

	if (next < steps->count && steps->of[next].reads <= reads)
		make_due(machine, reads);
}
