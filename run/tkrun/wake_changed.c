/* SPDX-License-Identifier: MIT OR Apache-2.0 */
/* wake_changed.c - wakes the threads whose time a command has brought, on a counter that runs. */
#define _GNU_SOURCE
#include "idle.h"

#include "processes/status.h"

enum {
	/* a slice that ends at its time isn't ended by the signal */
	SLICE_SLACK = 1000000,
	/* between two checks of waits: a discipline may change the rate at each second */
	CHECK_NANOS = 100000000,
};

/* Wakes a thread whose time has come, or frees its entry if it is gone. Returns the
 * host's time at which to look at it again. */
static uint64_t wake_late(struct node *node, uint32_t index, uint64_t owner,
			  uint64_t now)
{
	struct waiter *waiter = &node->machine.control->waiters[index];
	struct idle *idle = idle_of(node, index, owner);
	char status[STATUS_BYTES];

	if (now >= idle->next && !status_read(owner_thread(owner), status)) {
		waiter_free(waiter, owner);
		return NEVER;
	}
	idle_wake_again(node, waiter, idle, now);
	return idle->next;
}

/* Wakes a thread if its time has come before its slice ends. Returns the host's time at
 * which to look at it again. */
static uint64_t wake_if_due(struct node *node, uint32_t index, uint64_t now)
{
	struct waiter *waiter = &node->machine.control->waiters[index];
	uint64_t owner = atomic_load(&waiter->owner), left;

	if (owner_thread(owner) <= 0)
		return NEVER;
	left = machine_left(&node->machine, waiter->clock, waiter->sec,
			    waiter->nsec);
	if (left == NEVER || atomic_load(&waiter->owner) != owner ||
	    atomic_load(&waiter->slice_end) < now + left + SLICE_SLACK)
		return NEVER;
	return left ? now + left : wake_late(node, index, owner, now);
}

void wake_changed(struct node *node)
{
	struct control *control = node->machine.control;
	uint32_t changes = atomic_load(&node->machine.shared->generation),
		 count = atomic_load(&control->waiters_count);
	uint64_t now = host_nanos(CLOCK_MONOTONIC), due;

	if (changes == node->changes && now < node->next_look)
		return;
	node->changes = changes;
	node->next_look = now + CHECK_NANOS;
	for (uint32_t i = 0; i < count; i++) {
		due = wake_if_due(node, i, now);
		node->next_look = due < node->next_look ? due : node->next_look;
	}
}
