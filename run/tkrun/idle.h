/* SPDX-License-Identifier: MIT OR Apache-2.0 */
/* idle.h - the threads whose time has come, and that haven't acted yet. */
#ifndef IDLE_H
#define IDLE_H

#include "tkrun.h"

/* A waiter whose time has come, when tkrun first saw its thread not run since then. The
 * thread may be stopped. Or it has left its wait by siglongjmp or execve, and waits for
 * something else. */
struct idle {
	uint64_t owner, switches, since; /* since: the host's ns */
	uint64_t checks;
	uint64_t first; /* when its time was first seen to have come, by the host's ns */
	uint64_t next, gap; /* when it is woken again, and the ns from then to the next time */
	bool is_passed;
};

/* Returns what is known of a waiter whose time has come, by its place in the list. */
struct idle *idle_of(const struct node *node, uint32_t index, uint64_t owner);

/* Wakes a waiter when its time is first seen to have come. Returns whether that was just now. */
bool idle_is_fresh(const struct node *node, uint32_t index, uint64_t owner);

/* Wakes a waiter, unless it was woken lately. */
void idle_wake_again(const struct node *node, struct waiter *waiter,
		     struct idle *idle, uint64_t now);

/* Passes over a waiter whose time has come if its thread, which was just scanned, hasn't
 * run for some time. Returns false if the thread still may act. */
bool idle_pass_over(const struct node *node, uint32_t index, uint64_t owner);

/* Return whether a waiter was passed over, and whether it is left alone for now. */
bool idle_is_passed(const struct node *node, uint32_t index, uint64_t owner);
bool idle_is_left_alone(const struct node *node, uint32_t index, uint64_t owner);

#endif
