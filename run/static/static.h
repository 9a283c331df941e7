/* SPDX-License-Identifier: MIT OR Apache-2.0 */
/*
 * static.h - the calls about time that the library doesn't answer. A filter of the
 * system calls of all processes asks tkrun for them. The vDSO of each program is
 * replaced when it is executed: by the image of image.c, which reads the clocks, or by
 * none, so that it makes these calls.
 */
#ifndef STATIC_H
#define STATIC_H

#include "clocks/waiters.h"

#include <linux/seccomp.h>

/* A process belongs to the node with this soft limit of file locks minus NODE_LIMIT, or to node 0.
 * Kernels since Linux 2.4.25 don't read this limit. It is inherited by forks and by the programs
 * that a process executes, also without an environment. */
#define NODE_LIMIT 0x746b720000000000

/* Returns the number of a thread's node, from 0 to node_count() - 1. */
size_t node_of(int thread);
size_t node_count(void);

/* Returns the clocks of a node. */
struct machine *node_machine(size_t node);

/* Returns whether a file is a static program for this machine. */
bool is_static_file(const char *path);

/* Installs the filter in this process and all that it starts. Returns the file
 * by which the kernel asks, or minus an error. */
int filter_install(void);

/* Asks about the listener's next call. Returns false if there is none. */
bool filter_next(int listener, struct seccomp_notif *ask);

/* Returns whether no process has the filter any more. */
bool filter_is_over(int listener);

/* Return whether the filter asks about a system call, and about a sleep. A call
 * that the kernel restarts counts as a sleep. */
bool filter_asks(long call);
bool filter_asks_sleep(long call);

/* Returns whether a call still waits for its answer. If its thread was killed,
 * another one may have the thread's number. */
bool filter_has_call(int listener, uint64_t id);

/* Let the kernel make the call, or let it fail. */
void filter_continue(int listener, uint64_t id);
void filter_refuse(int listener, uint64_t id, int error);

/* Returns whether a call executes a program. */
bool is_exec(const struct seccomp_notif *ask);

/* Copies to the memory of the thread that has made a call, if the call still
 * waits. Returns 0 or an errno. */
int answer_put(const struct seccomp_notif *ask, uint64_t address,
	       const void *value, size_t size);

/* A sleep, by the call that has asked for it. */
struct sleep {
	struct seccomp_notif ask;
	struct machine *machine;
	int clock;
	struct timespec end; /* on the clock */
	uint64_t rest; /* the address where a signal stores what is left, or 0 */
};

/* Adds a sleep, to answer its call at the end. Returns false if memory is
 * missing. */
bool sleepers_add(const struct sleep *sleep);

/* Goes on with a thread's sleep when the kernel restarts its call after a stop:
 * the sleep ends when it would have ended without the stop. Returns false if this
 * is the restart of another call. */
bool sleepers_resume(const struct seccomp_notif *ask);

/* Returns whether a thread has a sleep that isn't over, and with `is_present` whether the
 * call in which the thread waits now is that sleep. */
bool sleepers_has(int32_t thread, bool is_present);

/* Returns whether a waiter with this owner is that of a sleep: tkrun ends it, and not its
 * thread. */
bool sleepers_have(const struct waiter *waiter, uint64_t owner);

/* Starts the thread that answers sleeps. Returns false if it can't. */
bool sleepers_start(int listener);

/* Starts the thread that answers. Returns false if it can't. */
bool answers_start(int listener);

/* Opens the files of a node's clocks. Returns false if it can't. */
bool files_open(size_t node, const char *folder);

/* Sets the socket that FILE_NET is, for all nodes. */
void files_offer_net(int file);

/* Sets the table that FILE_TURNS is, for all nodes. */
void files_offer_turns(int file);

/* Returns whether a thread is of the user who may command the clocks. */
bool files_may_command(int thread);

/* Gives one of a node to a process that has asked for it, and stores its number there. Returns 0 or
 * an errno. */
int files_give(int listener, const struct seccomp_notif *ask, size_t node, int64_t *value);

/* The programs that wait for being executed. The file that execs_open returns can be read when
 * there may be some, and SIGCHLD comes; execs_wait_no_more empties it. Returns -1 if it can't. */
int execs_open(void);
void execs_add(int listener, const struct seccomp_notif *ask);
bool execs_take(struct seccomp_notif *ask);
void execs_wait_no_more(void);

/* Lets the sleeps be checked, since the counter has moved. */
void sleepers_wake(void);

/* Names a program that has just been executed, and is traced, if it doesn't load the library and its
 * node has links. */
void unlinked_check(pid_t process);

/* Lets a thread execute a program, and follows it until it has. */
void exec_follow(int listener, const struct seccomp_notif *ask);

/* Handles the stop of a thread that is followed. */
void exec_stopped(pid_t thread, int status);

#endif
