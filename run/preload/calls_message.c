/* SPDX-License-Identifier: MIT OR Apache-2.0 */
/* calls_message.c - waits for messages, semaphores or signals, for a span or until a time. */
#define _GNU_SOURCE
#include "calls_wait.h"

#include <mqueue.h>
#include <signal.h>
#include <sys/sem.h>

EXPORT int sigtimedwait(const sigset_t *restrict set, siginfo_t *restrict info,
			const struct timespec *restrict span)
{
	struct timespec slice;
	struct wait wait;
	sigset_t own;
	int number;

	if (!wait_span(&wait, span))
		return REAL(sigtimedwait)(set, info, span);
	wait_unmasked(&wait, -EAGAIN);
	do {
		slice = wait_next(&wait);
		own = *set;
		if (wait.is_let)
			sigdelset(&own, WAKE_SIGNAL);
		number = REAL(sigtimedwait)(&own, info, &slice);
	} while (number < 0 && errno == EAGAIN && !wait.is_reached);
	wait_end(&wait);
	return number;
}

/* An operation that doesn't wait fails as one whose time has come, so a wait
 * with one can't be made in slices. */
static bool has_no_wait(const struct sembuf *operations, size_t count)
{
	for (size_t i = 0; i < count; i++) {
		if (operations[i].sem_flg & IPC_NOWAIT)
			return true;
	}
	return false;
}

EXPORT int semtimedop(int set, struct sembuf *operations, size_t count,
		      const struct timespec *span)
{
	struct timespec slice;
	struct wait wait;
	int result;

	if (machine() && span && has_no_wait(operations, count)) {
		note_host(machine(), HOST_SEMAPHORES);
		return REAL(semtimedop)(set, operations, count, span);
	}
	if (!wait_span(&wait, span))
		return REAL(semtimedop)(set, operations, count, span);
	wait_unmasked(&wait, -EAGAIN);
	do {
		slice = wait_next(&wait);
		result = REAL(semtimedop)(set, operations, count, &slice);
	} while (result < 0 && errno == EAGAIN && !wait.is_reached);
	wait_end(&wait);
	return result;
}

/* Begins a wait until a time of REALTIME, whose slices end on the host's. */
static bool wait_time(struct wait *wait, const struct timespec *time)
{
	struct machine *m = machine();

	if (!m || !time || is_bad(time) || time->tv_sec < 0)
		return false;
	wait_begin(wait, m, CLOCK_REALTIME, time);
	wait_unmasked(wait, -ETIMEDOUT);
	return true;
}

static struct timespec real_slice_end(struct wait *wait)
{
	uint64_t until = wait_slice(wait) + host_nanos(CLOCK_REALTIME);

	return (struct timespec){ (time_t)(until / NANOS),
				  (long)(until % NANOS) };
}

EXPORT ssize_t mq_timedreceive(mqd_t queue, char *restrict text, size_t size,
			       unsigned int *restrict priority,
			       const struct timespec *restrict time)
{
	struct timespec until;
	struct wait wait;
	ssize_t length;

	if (!wait_time(&wait, time))
		return REAL(mq_timedreceive)(queue, text, size, priority, time);
	do {
		until = real_slice_end(&wait);
		length = REAL(mq_timedreceive)(queue, text, size, priority,
					       &until);
	} while (length < 0 && errno == ETIMEDOUT && !wait.is_reached);
	wait_end(&wait);
	return length;
}

EXPORT int mq_timedsend(mqd_t queue, const char *text, size_t size,
			unsigned int priority, const struct timespec *time)
{
	struct timespec until;
	struct wait wait;
	int result;

	if (!wait_time(&wait, time))
		return REAL(mq_timedsend)(queue, text, size, priority, time);
	do {
		until = real_slice_end(&wait);
		result =
			REAL(mq_timedsend)(queue, text, size, priority, &until);
	} while (result < 0 && errno == ETIMEDOUT && !wait.is_reached);
	wait_end(&wait);
	return result;
}
