/* SPDX-License-Identifier: MIT OR Apache-2.0 */
/* quiet.c - finds out whether all threads wait. */
#define _GNU_SOURCE
#include "tree.h"

#include "backlog.h"

#include <stdlib.h>

/* Returns the first thread that doesn't wait, or NULL. */
static const struct thread_state *find_running(const struct tree *tree)
{
	for (size_t i = 0; i < tree->count; i++) {
		if (!tree->threads[i].is_waiting)
			return &tree->threads[i];
	}
	return NULL;
}

/* Returns whether a thread runs in the process that ran last, which is found out faster than by a
 * scan. A thread that has let a timer expire waits before the one that gets the signal does. */
static bool still_runs(struct tree *tree)
{
	const struct thread_state *last =
		tree->running ? tree_find(tree, tree->running) : NULL;
	int32_t process = last ? last->process : 0;

	for (size_t i = 0; process && i < tree->count; i++) {
		if (tree->threads[i].process == process &&
		    tree_check(tree, tree->threads[i].thread) &&
		    !tree->threads[i].is_waiting)
			return true;
	}
	return false;
}

/* Notes which waits of a list the threads have. */
static void find_waits_of(struct tree *tree, const struct control *control)
{
	uint32_t count = atomic_load(&control->waiters_count);

	for (uint32_t i = 0; i < count; i++) {
		const struct waiter *waiter = &control->waiters[i];
		uint64_t owner = atomic_load(&waiter->owner);
		struct thread_state *thread =
			owner_thread(owner) > 0
				? tree_find(tree, owner_thread(owner))
				: NULL;

		if (!thread)
			continue;
		thread->waits = (thread->waits + i) * HASH + owner;
		thread->slices += atomic_load(&waiter->slices);
	}
}

static void find_waits(struct tree *tree)
{
	for (size_t i = 0; i < tree->control_count; i++)
		find_waits_of(tree, tree->controls[i]);
}

/* Returns whether a thread has run only between slices of the same wait. In another wait it would
 * have other entries. In a handler it would be in another place, and would have slept once more. */
static bool goes_on(const struct thread_state *before, const struct thread_state *after)
{
	return before->waits && before->waits == after->waits &&
	       before->place == after->place &&
	       after->sleeps - before->sleeps <= after->slices - before->slices;
}

/* Returns whether both scans found the same threads, all waiting, and none of
 * them has run in between, or only to go on with its wait. One that has just ended
 * has not been counted as switched yet. */
static bool is_unmoved(const struct tree *first, const struct tree *second)
{
	if (first->count != second->count || find_running(second))
		return false;
	for (size_t i = 0; i < first->count; i++) {
		const struct thread_state *before = &first->threads[i];
		const struct thread_state *after = &second->threads[i];

		if (before->is_ended != after->is_ended ||
		    (before->switches != after->switches && !goes_on(before, after)))
			return false;
	}
	return true;
}

/* Looks at the threads of a scan again. Only one that has run in between can have made another. */
static bool scan_again(const struct tree *first, struct tree *second)
{
	for (size_t i = 0; i < first->count; i++) {
		if (!tree_add(second, first->threads[i].process,
			      first->threads[i].thread))
			return false;
	}
	find_waits(second);
	return true;
}

/* Returns whether all threads have ended: then the run is over, and nothing waits. */
static bool has_ended(const struct tree *tree)
{
	for (size_t i = 0; i < tree->count; i++) {
		if (!tree->threads[i].is_ended)
			return false;
	}
	return true;
}

bool tree_is_quiet(struct tree *tree)
{
	struct tree second = { .has_filter = tree->has_filter,
			       .controls = tree->controls,
			       .control_count = tree->control_count };
	const struct thread_state *running;
	bool is_quiet;

	if (still_runs(tree) || !tree_scan(tree) || has_ended(tree))
		return false;
	running = find_running(tree);
	tree->running = running ? running->thread : 0;
	if (running)
		return false;
	find_waits(tree);
	/* what the threads have sent before they waited must arrive before they are looked at again */
	is_quiet = backlog_is_empty() && scan_again(tree, &second) && is_unmoved(tree, &second) &&
		   !tree_has_other_children(tree);
	free(second.threads);
	return is_quiet;
}
