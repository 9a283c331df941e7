/* SPDX-License-Identifier: MIT OR Apache-2.0 */
/* move_counter.c - moves a counter of sleeps, and wakes the threads whose time has come. */
#define _GNU_SOURCE
#include "grant.h"
#include "idle.h"
#include "moving.h"
#include "net.h"

#include "clocks/file_times.h"

#include <stdlib.h>
#include <sys/syscall.h>

enum { STEPS_MOST = 1000 }; /* of walks, until threads are looked at again */

uint64_t waiter_left(struct node *node, const struct waiter *waiter, uint64_t owner)
{
	uint64_t left;

	if (owner_thread(owner) < 0)
		return 0;
	left = machine_cycles_left(&node->machine, waiter->clock, waiter->sec,
				   waiter->nsec);
	return atomic_load(&waiter->owner) == owner ? left : 0;
}

/* Returns the cycles until the first of the waiting threads' times, and NEVER
 * if none waits. Frees the entries of threads that are gone. */
static uint64_t first_waiter(struct node *node)
{
	struct control *control = node->machine.control;
	uint32_t count = atomic_load(&control->waiters_count);
	uint64_t least = NEVER, left;

	for (uint32_t i = 0; i < count; i++) {
		struct waiter *waiter = &control->waiters[i];
		uint64_t owner = atomic_load(&waiter->owner);
		int32_t thread = abs(owner_thread(owner));

		if (!thread || idle_is_passed(node, i, owner))
			continue;
		if (!tree_find(node->tree, thread)) {
			if (tree_check(node->tree, thread))
				return 0; /* not all wait any more */
			waiter_free(waiter, owner);
			continue;
		}
		left = waiter_left(node, waiter, owner);
		least = left < least ? left : least;
	}
	return least;
}

/* Returns whether a thread still has to act on a time that has come. */
static bool has_reached(struct node *node)
{
	struct control *control = node->machine.control;
	uint32_t count = atomic_load(&control->waiters_count);

	for (uint32_t i = 0; i < count; i++) {
		struct waiter *waiter = &control->waiters[i];
		uint64_t owner = atomic_load(&waiter->owner);
		int32_t thread = abs(owner_thread(owner));

		if (!thread || waiter_left(node, waiter, owner) ||
		    turns_has_ready(thread) || idle_is_left_alone(node, i, owner))
			continue;
		if (idle_is_fresh(node, i, owner))
			return true;
		if (!tree_check(node->tree, thread))
			waiter_free(waiter, owner);
		else if (!idle_pass_over(node, i, owner))
			return true;
	}
	return false;
}

/* Wakes the threads whose time has come. The next look is at one of them first. */
static void wake_reached(struct node *node)
{
	struct machine *machine = &node->machine;
	struct control *control = machine->control;
	uint32_t count = atomic_load(&control->waiters_count);

	for (uint32_t i = 0; i < count; i++) {
		struct waiter *waiter = &control->waiters[i];
		uint64_t owner = atomic_load(&waiter->owner);

		if (owner_thread(owner) <= 0 ||
		    waiter_left(node, waiter, owner) || idle_is_passed(node, i, owner))
			continue;
		node->tree->running = owner_thread(owner);
		idle_is_fresh(node, i, owner);
	}
}

/* Returns whether a thread's call is tkrun's to answer. A restarted one is the
 * host's unless it is a sleep that tkrun has stopped. */
static bool is_asked(const struct thread_state *thread)
{
	if (thread->call == SYS_restart_syscall)
		return sleepers_has(thread->thread, false);
	return filter_asks(thread->call);
}

/* Returns whether tkrun hasn't answered a call yet. Its thread waits for the
 * answer, and for nothing else unless the call is a sleep that is listed. */
static bool has_unanswered(const struct run *run)
{
	for (size_t i = 0; i < run->tree.count; i++) {
		const struct thread_state *thread = &run->tree.threads[i];

		if (is_asked(thread) &&
		    !(filter_asks_sleep(thread->call) &&
		      sleepers_has(thread->thread, true)))
			return true;
	}
	return false;
}

/* Returns whether a thread is the last one of its process. */
static bool is_last(const struct tree *tree, const struct thread_state *last)
{
	for (size_t i = 0; i < tree->count; i++) {
		const struct thread_state *thread = &tree->threads[i];

		if (thread != last && thread->process == last->process &&
		    !thread->is_ended)
			return false;
	}
	return true;
}

/* Wakes the threads that follow the clocks for timers, and that are the last ones of their
 * processes: they end these. Returns whether there are some. */
static bool wake_last(struct node *node)
{
	struct control *control = node->machine.control;
	uint32_t count = atomic_load(&control->waiters_count);
	bool is_found = false;

	for (uint32_t i = 0; i < count; i++) {
		struct waiter *waiter = &control->waiters[i];
		uint64_t owner = atomic_load(&waiter->owner);
		const struct thread_state *thread =
			owner_thread(owner) > 0 && is_follower(waiter)
				? tree_find(node->tree, owner_thread(owner))
				: NULL;

		if (!thread || !is_last(node->tree, thread))
			continue;
		atomic_store(&waiter->is_alone, true);
		waiter_wake(control, waiter, owner);
		is_found = true;
	}
	return is_found;
}

uint64_t common_after(const struct node *node, uint64_t cycles)
{
	if (cycles == NEVER)
		return NEVER;
	return pace_common(&node->pace,
			   atomic_load(&node->machine.shared->cycles) + cycles);
}

/* Returns the common counter at the first of the threads' times, the orders, the events and the
 * arrivals of all nodes. Returns NEVER if there is none, or a thread is about to wait for a time
 * that has come. */
static uint64_t find_next(struct run *run)
{
	bool is_reached = false, is_due = events_next() <= run->elapsed;
	uint64_t least = events_next(), arrival = net_next();

	for (size_t i = 0; i < run->count; i++) {
		struct node *node = &run->nodes[i];
		uint64_t waiter = first_waiter(node);
		uint64_t order = plan_left(&node->plan, &node->machine);
		uint64_t common = common_after(node, waiter < order ? waiter : order);

		is_reached |= !waiter;
		is_due |= !order;
		least = common < least ? common : least;
	}
	if (is_due)
		return run->elapsed;
	least = arrival < least ? arrival : least;
	return is_reached ? NEVER : least;
}

/* Reads may have moved a counter further, and move it meanwhile. */
static void raise_cycles(_Atomic uint64_t *cycles, uint64_t least)
{
	uint64_t now = atomic_load(cycles);

	while (now < least && !atomic_compare_exchange_weak(cycles, &now, least))
		;
}

/* Moves a node's counter to the common one, and carries out its orders. */
static void move_node(struct node *node, uint64_t common)
{
	static const struct order update = { .command = TKC_CMD_UPDATE };
	struct machine *machine = &node->machine;
	sigset_t saved;

	machine_lock(machine, &saved);
	raise_cycles(&machine->shared->cycles, pace_cycles(&node->pace, common));
	plan_run(&node->plan, machine);
	if (!machine_is_asleep(machine))
		machine_apply(machine, &update, 1);
	machine_unlock(machine, &saved);
	moves_note(machine);
}

/* Returns whether all threads of all nodes wait. A thread may look at rest, then act on its time
 * and leave the list. So the list is looked at before the threads are, and after it. */
static bool all_wait(struct run *run)
{
	bool has_last = false;

	for (size_t i = 0; i < run->count; i++) {
		if (has_reached(&run->nodes[i]))
			return false;
	}
	if (!tree_is_quiet(&run->tree) || (run->tree.has_filter && has_unanswered(run)))
		return false;
	for (size_t i = 0; i < run->count; i++)
		has_last |= wake_last(&run->nodes[i]);
	return !has_last;
}

/* Moves all counters, with their orders and the steps of their walks. */
static void move_all(struct run *run, uint64_t common)
{
	file_times_wait(&run->nodes->machine, true);
	run->elapsed = common;
	for (size_t i = 0; i < run->count; i++)
		move_node(&run->nodes[i], common);
	wander_all_due(run);
}

/* Returns where the common counter moves to, or NEVER. At the steps of the nodes' walks before
 * that, no thread's time comes, so the threads aren't looked at. A step changes where it moves. */
static uint64_t pass_steps(struct run *run)
{
	uint64_t common = find_next(run), step = before_wander(run, common);

	for (int i = 0; i < STEPS_MOST && step < common; i++) {
		move_all(run, step);
		common = find_next(run);
		step = before_wander(run, common);
	}
	return step;
}

void move_and_wake(struct run *run, uint64_t common)
{
	move_all(run, common);
	act_all_due(run);
	for (size_t i = 0; i < run->count; i++) {
		wake_reached(&run->nodes[i]);
		machine_wake(&run->nodes[i].machine);
	}
}

bool move_counter(struct run *run)
{
	uint64_t common;

	run->tree.has_filter = run->listener >= 0;
	if (!all_wait(run)) {
		turns_watch(run);
		return !turns_are_on() && follow_spin(run);
	}
	if (turns_are_on() && follow_reads(run))
		return true;
	if (turns_grant(run))
		return false;
	if (run->count > 1 && (control_serve(run) || net_serve(run->elapsed))) {
		turns_note_change();
		return false;
	}
	if (follow_reads(run))
		return true;
	common = pass_steps(run);
	turns_note_move(common != NEVER);
	if (common == NEVER)
		return false;
	move_and_wake(run, common);
	return true;
}
