/* SPDX-License-Identifier: MIT OR Apache-2.0 */
/* idle.c - the threads whose time has come, and that haven't acted yet. */
#define _GNU_SOURCE
#include "idle.h"

#include "processes/status.h"

#include <stdlib.h>

/* tkrun ignores the time of a thread that hasn't run for PASS_NANOS, and was found so PASS_CHECKS
 * times. A thread that waits for a time that has come runs at once. The host's time goes on
 * while all are stopped, and tkrun's tests don't. */
enum { PASS_NANOS = 1000000000, PASS_CHECKS = 16 };

/* A thread may get the signal that ends its wait just before it waits, or in a handler, so it
 * is woken again, ever more seldom. PASS_NANOS must fit between two times. */
enum { AGAIN_NANOS = 1000000, AGAIN_TIMES = 10 };

/* A thread that was just woken acts within FRESH_NANOS, unless the machine is busy. */
enum { FRESH_NANOS = 500000 };

struct idle *idle_of(const struct node *node, uint32_t index, uint64_t owner)
{
	struct idle *idle = &node->idles[index];

	if (idle->owner != owner)
		*idle = (struct idle){ .owner = owner, .gap = AGAIN_NANOS };
	return idle;
}

bool idle_is_passed(const struct node *node, uint32_t index, uint64_t owner)
{
	return node->idles[index].is_passed && node->idles[index].owner == owner;
}

/* Returns whether a thread handles the signal. It may have executed a program that the signal would
 * end. With a counter of sleeps it was just looked at. */
static bool handles_wake(const struct node *node, int32_t thread)
{
	const struct thread_state *state = tree_find(node->tree, thread);
	char status[STATUS_BYTES];

	if (node->machine.shared->kind == COUNTER_SLEEPS)
		return state && state->has_wake;
	return status_read(thread, status) && status_handles_wake(status);
}

static void wake(const struct node *node, struct waiter *waiter, uint64_t owner)
{
	if (!waiter_has_signal(waiter, owner) ||
	    handles_wake(node, owner_thread(owner)))
		waiter_wake(node->machine.control, waiter, owner);
}

void idle_wake_again(const struct node *node, struct waiter *waiter,
		       struct idle *idle, uint64_t now)
{
	if (now < idle->next)
		return;
	wake(node, waiter, idle->owner);
	idle->next = now + idle->gap;
	idle->gap *= AGAIN_TIMES;
}

bool idle_pass_over(const struct node *node, uint32_t index, uint64_t owner)
{
	struct waiter *waiter = &node->machine.control->waiters[index];
	const struct thread_state *state =
		tree_find(node->tree, abs(owner_thread(owner)));
	struct idle *idle = idle_of(node, index, owner);
	uint64_t now = host_nanos(CLOCK_MONOTONIC);

	if (!state || !state->is_waiting || sleepers_have(waiter, owner))
		return false;
	idle_wake_again(node, waiter, idle, now);
	if (!idle->checks || state->switches != idle->switches) {
		idle->switches = state->switches;
		idle->since = now;
		idle->checks = 0;
	}
	idle->is_passed |= ++idle->checks > PASS_CHECKS &&
			   now - idle->since >= PASS_NANOS;
	return idle->is_passed;
}

bool idle_is_left_alone(const struct node *node, uint32_t index, uint64_t owner)
{
	return idle_is_passed(node, index, owner) &&
	       host_nanos(CLOCK_MONOTONIC) < node->idles[index].next;
}

bool idle_is_fresh(const struct node *node, uint32_t index, uint64_t owner)
{
	struct idle *idle = idle_of(node, index, owner);
	uint64_t now = host_nanos(CLOCK_MONOTONIC);

	if (!idle->first) {
		idle->first = now;
		wake(node, &node->machine.control->waiters[index], owner);
	}
	return now - idle->first < FRESH_NANOS;
}
