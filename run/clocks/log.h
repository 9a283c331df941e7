/* SPDX-License-Identifier: MIT OR Apache-2.0 */
/* log.h - --log: a line for each call that sets or steers the clocks. */
#ifndef LOG_H
#define LOG_H

#include "machine.h"

/* A call of a process, with its result: minus an errno if it has failed. */
struct logged_call {
	struct log *log; /* NULL: a process of another user writes none */
	int process;
	const char *name;
	int result;
};

/* Each of these writes a line with the call's arguments, or counts it as lost. errno
 * stays, no thread is cancelled, and no limit of a file's size ends the process. */
void log_time(struct logged_call call, int64_t sec, int64_t nsec);
void log_micros(struct logged_call call, const struct timeval *time);
void log_clock(struct logged_call call, clockid_t clock);

/* A request that only reads has no line. */
void log_request(struct logged_call call, const struct timex *request);

#endif
