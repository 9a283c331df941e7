/* SPDX-License-Identifier: MIT OR Apache-2.0 */
/* tree.h - the processes below tkrun, by /proc. */
#ifndef TREE_H
#define TREE_H

#include "clocks/waiters.h"

/*
 * A thread, when it was looked at. `switches` counts how often it has left a
 * processor, and `sleeps` how often to wait. `place` says where it waits: the call
 * with its arguments and its stack. `waits` is made of its entries in the list of
 * those that wait, or 0, and `slices` is the number of their slices. `children` is
 * made of its children, or 0.
 */
struct thread_state {
	int32_t thread, process;
	uint64_t switches, sleeps, place, waits, slices, children;
	bool is_waiting; /* for anything: it isn't running or about to */
	bool is_ended;
	bool has_wake;	 /* its process handles WAKE_SIGNAL */
	long call;	 /* the system call in which it waits, or -1 */
	uint64_t first;	 /* its first argument */
};

/* A process, and the number of its ancestors up to tkrun. */
struct process {
	int32_t process;
	int depth;
};

struct tree {
	bool has_filter; /* tkrun answers calls of the processes */
	const struct control **controls; /* the lists of those that wait */
	size_t control_count;
	uint64_t children; /* made of those of tkrun */
	int32_t running; /* a thread that didn't wait at the last scan, or was woken, or 0 */
	struct thread_state *threads;
	size_t count, room;
	struct process *processes;
	size_t process_count, process_room;
};

/* Lists all processes below tkrun and their threads. Returns false if memory
 * is missing. */
bool tree_scan(struct tree *tree);

/* Returns whether a process has got another child since the last scan, or lost one, also if the
 * scan has missed it: if its parent has died since the children of tkrun were listed, it is one of
 * these now. */
bool tree_has_other_children(const struct tree *tree);

/* A factor for sums of parts: odd, without small factors. */
static const uint64_t HASH = 0x9e3779b97f4a7c15;

/* Returns the state of a thread when it was last looked at, or NULL. */
struct thread_state *tree_find(const struct tree *tree, int32_t thread);

/* Reads the state of a thread again, or scans all if it isn't known. Returns whether the thread is
 * there. */
bool tree_check(struct tree *tree, int32_t thread);

/* Adds a thread of a process, if it is there. Returns false if memory is missing. */
bool tree_add(struct tree *tree, int32_t process, int32_t thread);

/* Returns whether all threads wait: each did at two scans, and has left no
 * processor in between, or has only looked at the clocks and gone on with the same
 * wait. `tree` then contains the threads. */
bool tree_is_quiet(struct tree *tree);

/* Sends a signal to tkrun's children. Only tkrun can reap them, so their numbers
 * are theirs. */
void tree_signal(struct tree *tree, int number);

/* Sends a signal to all processes below tkrun. Returns their number. */
size_t tree_signal_all(struct tree *tree, int number);

#endif
