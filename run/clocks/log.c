/* SPDX-License-Identifier: MIT OR Apache-2.0 */
/* log.c - writes the lines of --log. */
#define _GNU_SOURCE
#include "log.h"

#include "requests.h"

#include <errno.h>
#include <fcntl.h>
#include <signal.h>
#include <stdarg.h>
#include <stdio.h>
#include <string.h>
#include <sys/syscall.h>

#ifdef LIBRARY /* which C libraries load that lack it, and where it isn't called */
extern __typeof__(strerrorname_np) strerrorname_np __attribute__((weak));
#endif

enum { SET_BYTES = 8 }; /* a set of signals, for the kernel */

/* Writes to a file. If the file's size has reached its limit, the kernel sends
 * SIGXFSZ to this thread, which is taken back. Returns the bytes, or minus an error. */
static long write_all(long file, const char *line, size_t length)
{
	const struct timespec none = { 0, 0 };
	sigset_t limit, saved, pending;
	long result;

	sigemptyset(&limit);
	sigaddset(&limit, SIGXFSZ);
	pthread_sigmask(SIG_BLOCK, &limit, &saved);
	sigpending(&pending);
	result = host_call(SYS_write, file, (long)line, (long)length, 0, 0, 0);
	if (result == -EFBIG && !sigismember(&pending, SIGXFSZ))
		host_call(SYS_rt_sigtimedwait, (long)&limit, 0, (long)&none,
			  SET_BYTES, 0, 0);
	pthread_sigmask(SIG_SETMASK, &saved, NULL);
	return result;
}

/* Writes a line by one call, so that the lines of processes don't mix. Returns 0
 * or an error. */
static int write_line(const char *path, const char *line, size_t length)
{
	long file = host_open(path, O_WRONLY | O_APPEND, FILE_LOG);
	long result;

	if (file < 0)
		return (int)-file;
	result = write_all(file, line, length);
	host_call(SYS_close, file, 0, 0, 0, 0, 0);
	if (result < 0)
		return (int)-result;
	return (size_t)result == length ? 0 : ENOSPC;
}

static void add_line(struct log *log, const char *line, size_t length)
{
	int error = atomic_load(&log->error);

	if (!error)
		error = write_line(log->path, line, length);
	if (!error) {
		atomic_fetch_add(&log->written, 1);
		return;
	}
	atomic_store(&log->error, error);
	atomic_fetch_add(&log->lost, 1);
}

__attribute__((format(printf, 2, 3))) static void
put(const struct logged_call *call, const char *form, ...)
{
	int length, error = errno;
	char line[512];
	va_list list;

	if (!call->log || !*call->log->path)
		return;
	length = snprintf(line, sizeof(line), "%s%s%d %s ", call->log->node,
			  *call->log->node ? " " : "", call->process, call->name);
	va_start(list, form);
	length += vsnprintf(line + length, sizeof(line) - (size_t)length, form,
			    list);
	va_end(list);
	if (call->result < 0)
		length += snprintf(line + length, sizeof(line) - (size_t)length,
				   " = %s\n", strerrorname_np(-call->result));
	else
		length += snprintf(line + length, sizeof(line) - (size_t)length,
				   " = %d\n", call->result);
	add_line(call->log, line, (size_t)length);
	errno = error;
}

void log_time(struct logged_call call, int64_t sec, int64_t nsec)
{
	put(&call, "%lld.%09lld", (long long)sec, (long long)nsec);
}

void log_micros(struct logged_call call, const struct timeval *time)
{
	put(&call, "%lld.%06lld", (long long)time->tv_sec,
	    (long long)time->tv_usec);
}

void log_clock(struct logged_call call, clockid_t clock)
{
	put(&call, "clock %d", clock);
}

void log_request(struct logged_call call, const struct timex *request)
{
	struct timex asked = request_selected(request);

	if (request_only_reads(request))
		return;
	put(&call,
	    "modes=%#x offset=%ld freq=%ld maxerror=%ld esterror=%ld "
	    "tick=%ld status=%#x constant=%ld time=%ld.%ld",
	    asked.modes, asked.offset, asked.freq, asked.maxerror,
	    asked.esterror, asked.tick, (unsigned int)asked.status,
	    asked.constant, asked.time.tv_sec, asked.time.tv_usec);
}
