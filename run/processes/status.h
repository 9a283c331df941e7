/* SPDX-License-Identifier: MIT OR Apache-2.0 */
/* status.h - what /proc says of a thread, in its file `status`. */
#ifndef STATUS_H
#define STATUS_H

#include <stdbool.h>
#include <stddef.h>
#include <stdint.h>
#include <sys/types.h>

/* Enough for the longest line, which lists the groups of a process: 5,000 of them. */
enum { STATUS_BYTES = 65536 };

/* Reads a file of /proc as text, by one call. Returns false if it is gone. */
bool proc_read(const char *path, char *text, size_t size);

/* Reads a list of /proc, of which one call returns at most a page. Returns its text,
 * which the caller frees, or NULL if it is empty or gone, or memory is missing. */
char *proc_read_list(const char *path);

/* Return whether a file is tkrun, and whether a process runs it: a tkrun inside this one makes
 * clocks on the host's counter. */
bool is_tkrun_file(const char *path);
bool proc_is_tkrun(int process);

/* Returns the processor time of a process, in ticks. */
uint64_t proc_ticks(int process);

/* Reads the status of a thread or a process. Returns false if it is gone. */
bool status_read(int thread, char text[STATUS_BYTES]);

/* Returns the number of a line, in this base, or 0 if there is no such line. */
uint64_t status_number(const char *status, const char *name, int base);

/* Returns the effective user, or -1. */
uid_t status_user(const char *status);

/* Returns whether the process handles WAKE_SIGNAL. */
bool status_handles_wake(const char *status);

/* Returns the letter of the state, or 0. */
char status_state(const char *status);

/* What the signals that a thread is to get do to a call that waits. */
enum interruption {
	NOT_INTERRUPTED,
	STOPPED,     /* the call goes on after a stop, or at once */
	INTERRUPTED, /* a handler runs, or the process ends */
};

/* `is_alone` leaves out signals of the process, which another thread may get. */
enum interruption status_interruption(const char *status, bool is_alone);

#endif
