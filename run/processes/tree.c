/* SPDX-License-Identifier: MIT OR Apache-2.0 */
/* tree.c - lists the processes below tkrun and their threads, and signals them. */
#define _GNU_SOURCE
#include "tree.h"

#include "status.h"
#include "static/static.h"

#include <dirent.h>
#include <signal.h>
#include <stdio.h>
#include <stdlib.h>
#include <string.h>
#include <sys/syscall.h>
#include <unistd.h>

enum { DEPTH_MOST = 64 };

/* Makes room for one more element. */
static bool grow(void **list, size_t count, size_t *room, size_t size)
{
	size_t wanted = *room ? 2 * *room : 64;
	void *larger;

	if (count < *room)
		return true;
	larger = realloc(*list, wanted * size);
	if (!larger)
		return false;
	*list = larger;
	*room = wanted;
	return true;
}

/*
 * Finds out whether a thread waits, and in which call. One that is said to wait
 * may still run: it may be about to wait, or be woken, or reap a child (do_wait
 * in kernel/exit.c). The kernel makes sure of it only for the file `syscall`
 * (task_current_syscall).
 */
static void find_call(struct thread_state *thread, const char *folder,
		      char state)
{
	char path[128], text[256], *rest;

	thread->call = -1;
	snprintf(path, sizeof(path), "%s/syscall", folder);
	if (!proc_read(path, text, sizeof(text)))
		return;
	for (const char *at = text; *at; at++)
		thread->place = thread->place * HASH + (unsigned char)*at;
	thread->is_waiting = strncmp(text, "running", 7);
	if (!thread->is_waiting || (state != 'S' && state != 'D'))
		return;
	thread->call = strtol(text, &rest, 10);
	thread->first = strtoul(rest, NULL, 16);
}

/* A sleep that tkrun has to answer is in state D, as is a thread that waits for
 * a disk. It is over when a signal comes. */
static bool is_asleep(const struct thread_state *thread, const char *status)
{
	return filter_asks_sleep(thread->call) &&
	       !status_interruption(status, true);
}

/* tkrun itself stops a thread that executes a program, and lets it go on at once. */
static bool is_followed(char state, const char *status)
{
	return state == 't' && status_number(status, "TracerPid", 10) ==
				       (uint64_t)getpid();
}

/* Reads the state of a thread of a process. Returns false if the thread is gone. */
static bool read_thread(const struct tree *tree, int32_t process, int32_t thread,
			struct thread_state *out)
{
	char folder[64], path[128], status[STATUS_BYTES], state;
	uint64_t sleeps;

	snprintf(folder, sizeof(folder), "/proc/%d/task/%d", process, thread);
	snprintf(path, sizeof(path), "%s/status", folder);
	if (!proc_read(path, status, sizeof(status)))
		return false;
	state = status_state(status);
	sleeps = status_number(status, "voluntary_ctxt_switches", 10);
	/* a thread in state X still runs: the kernel has not signalled the parent yet */
	*out = (struct thread_state){
		.thread = thread,
		.process = process,
		.is_ended = state && strchr("ZX", state),
		.sleeps = sleeps,
		.switches = sleeps + status_number(status,
						   "nonvoluntary_ctxt_switches",
						   10),
		.is_waiting = state && strchr("STtZD", state) &&
			      !is_followed(state, status),
		.has_wake = status_handles_wake(status),
		.call = -1,
	};
	if (out->is_waiting)
		find_call(out, folder, state);
	if (state == 'D')
		out->is_waiting &= tree->has_filter && is_asleep(out, status);
	return true;
}

bool tree_add(struct tree *tree, int32_t process, int32_t thread)
{
	struct thread_state state;

	if (!read_thread(tree, process, thread, &state))
		return true;
	if (!grow((void **)&tree->threads, tree->count, &tree->room,
		  sizeof(*tree->threads)))
		return false;
	tree->threads[tree->count++] = state;
	return true;
}

struct thread_state *tree_find(const struct tree *tree, int32_t thread)
{
	for (size_t i = 0; i < tree->count; i++) {
		if (tree->threads[i].thread == thread)
			return &tree->threads[i];
	}
	return NULL;
}

/* Most threads that aren't known have ended. */
bool tree_check(struct tree *tree, int32_t thread)
{
	struct thread_state *state = tree_find(tree, thread);
	char status[STATUS_BYTES];

	if (state)
		return read_thread(tree, state->process, thread, state);
	return status_read(thread, status) &&
	       (!tree_scan(tree) || tree_find(tree, thread));
}

static bool add_process(struct tree *tree, int32_t process, int depth);

/* Returns a number that is made of a list of children, or 0 if it is none. */
static uint64_t sum_of(const char *list)
{
	uint64_t sum = 0;

	for (const char *at = list; at && *at; at++)
		sum = sum * HASH + (unsigned char)*at;
	return sum;
}

static char *list_children(const char *folder)
{
	char path[128];

	snprintf(path, sizeof(path), "%s/children", folder);
	return proc_read_list(path);
}

/* Adds the children of a thread, and stores what is made of them. */
static bool add_children(struct tree *tree, const char *folder, int depth, uint64_t *sum)
{
	char *text = list_children(folder), *next = text, *end;
	bool is_done = true;
	long child;

	*sum = sum_of(text);
	while (is_done && next && (child = strtol(next, &end, 10)) > 0) {
		is_done = add_process(tree, (int32_t)child, depth + 1);
		next = end;
	}
	free(text);
	return is_done;
}

/* Adds a process with its threads, and all below it. Of tkrun itself, which is
 * process 0 here, only what is below it. */
static bool add_process(struct tree *tree, int32_t process, int depth)
{
	char name[32], folder[64];
	struct dirent *entry;
	bool is_done = true, is_thread;
	uint64_t sum;
	size_t place;
	DIR *tasks;

	snprintf(name, sizeof(name),
		 process ? "/proc/%d/task" : "/proc/self/task", process);
	tasks = depth < DEPTH_MOST ? opendir(name) : NULL;
	if (!tasks)
		return true;
	if (process) {
		is_done = grow((void **)&tree->processes, tree->process_count,
			       &tree->process_room, sizeof(*tree->processes));
		if (is_done)
			tree->processes[tree->process_count++] =
				(struct process){ process, depth };
	}
	while (is_done && (entry = readdir(tasks))) {
		if (*entry->d_name == '.')
			continue;
		snprintf(folder, sizeof(folder), "%s/%.16s", name,
			 entry->d_name);
		place = tree->count;
		if (process)
			is_done = tree_add(tree, process, atoi(entry->d_name));
		is_thread = tree->count > place;
		is_done = is_done && add_children(tree, folder, depth, &sum);
		if (is_thread)
			tree->threads[place].children = sum;
		else if (!process)
			tree->children += sum;
	}
	closedir(tasks);
	return is_done;
}

bool tree_scan(struct tree *tree)
{
	tree->count = 0;
	tree->process_count = 0;
	tree->children = 0;
	return add_process(tree, 0, 0);
}

static uint64_t sum_children(int32_t process, int32_t thread)
{
	char folder[64], *list;
	uint64_t sum;

	snprintf(folder, sizeof(folder), "/proc/%d/task/%d", process, thread);
	list = list_children(folder);
	sum = sum_of(list);
	free(list);
	return sum;
}

/* A process that has no child can't get that of another one. Only the main thread of tkrun has
 * children. */
bool tree_has_other_children(const struct tree *tree)
{
	for (size_t i = 0; i < tree->count; i++) {
		const struct thread_state *state = &tree->threads[i];

		if (state->children &&
		    sum_children(state->process, state->thread) != state->children)
			return true;
	}
	return sum_children(getpid(), getpid()) != tree->children;
}

void tree_signal(struct tree *tree, int number)
{
	if (!tree_scan(tree))
		return;
	for (size_t i = 0; i < tree->process_count; i++) {
		if (tree->processes[i].depth == 1)
			kill(tree->processes[i].process, number);
	}
}

/* Returns whether a process is below tkrun. */
static bool is_below(int32_t process)
{
	char status[STATUS_BYTES];
	int depth = 0;

	while (process > 1 && process != getpid() && depth++ < DEPTH_MOST)
		process = status_read(process, status)
				  ? (int32_t)status_number(status, "PPid", 10)
				  : 0;
	return process == getpid();
}

/* Another process may have a number by now. So a file of the process is opened first: if the
 * number's process is below tkrun after that, the file is of this one, or of one that has ended. */
static void signal_process(int32_t process, int number)
{
	int file = (int)syscall(SYS_pidfd_open, process, 0);

	if (file < 0)
		return;
	if (is_below(process))
		syscall(SYS_pidfd_send_signal, file, number, NULL, 0);
	close(file);
}

size_t tree_signal_all(struct tree *tree, int number)
{
	if (!tree_scan(tree))
		return 0;
	for (size_t i = 0; i < tree->process_count; i++)
		signal_process(tree->processes[i].process, number);
	return tree->process_count;
}
