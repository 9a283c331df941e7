/* SPDX-License-Identifier: MIT OR Apache-2.0 */
/*
 * follow_reads.c - with --read-cost, a read moves the counter of its node. The common counter and
 * all other nodes follow when all threads wait, or when a thread spins.
 */
#define _GNU_SOURCE
#include "moving.h"

#include "idle.h"
#include "net.h"

enum { SPIN_NANOS = 1000000 }; /* a thread that has read for so long spins */

/* Returns the common counter where the furthest of the nodes is: reads have moved it. */
static uint64_t furthest(const struct run *run)
{
	uint64_t most = run->elapsed, common;

	for (size_t i = 0; i < run->count; i++) {
		const struct node *node = &run->nodes[i];
		uint64_t cycles = atomic_load(&node->machine.shared->cycles);

		common = pace_common(&node->pace, cycles + 1) - 1;
		most = common > most ? common : most;
	}
	return most;
}

bool follow_reads(struct run *run)
{
	uint64_t common = run->nodes->options.read_cost ? furthest(run) : run->elapsed;

	if (common == run->elapsed)
		return false;
	move_and_wake(run, common);
	return true;
}

/* Returns whether the time of a waiting thread of a node has come when the common counter has moved
 * on. Threads that are about to wait aren't asked. */
static bool has_waiter_before(struct node *node, uint64_t common)
{
	struct control *control = node->machine.control;
	uint32_t count = atomic_load(&control->waiters_count);

	for (uint32_t i = 0; i < count; i++) {
		const struct waiter *waiter = &control->waiters[i];
		uint64_t owner = atomic_load(&waiter->owner);

		if (owner_thread(owner) > 0 && !idle_is_passed(node, i, owner) &&
		    common_after(node, waiter_left(node, waiter, owner)) <= common)
			return true;
	}
	return false;
}

bool follow_spin(struct run *run)
{
	const struct node *first = run->nodes;
	uint64_t common = first->options.read_cost ? furthest(run) : run->elapsed;
	double unit = run->count > 1 ? 1 : first->machine.shared->nanos_per_cycle;
	bool is_due;

	if ((double)(common - run->elapsed) * unit < SPIN_NANOS)
		return false;
	is_due = events_next() <= common || net_next() <= common ||
		 before_wander(run, common) < common;
	for (size_t i = 0; i < run->count && !is_due; i++) {
		struct node *node = &run->nodes[i];
		uint64_t order = plan_left(&node->plan, &node->machine);

		is_due = common_after(node, order) <= common || has_waiter_before(node, common);
	}
	return is_due && follow_reads(run);
}
