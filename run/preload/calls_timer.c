/* SPDX-License-Identifier: MIT OR Apache-2.0 */
/* calls_timer.c - the calls that set timers. */
#define _GNU_SOURCE
#include "timers.h"

#include <signal.h>
#include <sys/syscall.h>
#include <sys/time.h>
#include <sys/timerfd.h>
#include <unistd.h>

EXPORT int timerfd_create(int clock, int flags)
{
	struct machine *m = machine();
	int number = m ? machine_clock(clock) : -1;
	int file = REAL(timerfd_create)(number < 0 ? clock : CLOCK_MONOTONIC,
					flags);
	struct timer *timer;
	sigset_t saved;

	if (file < 0 || !m)
		return file;
	timers_lock(&saved);
	timer = timer_find(TIMER_FILE, file);
	if (timer)
		timer_remove(timer); /* of a file that was closed */
	timer = number < 0 ? NULL : timer_add(TIMER_FILE, file, number);
	timers_unlock(&saved);
	if (timer || number < 0)
		return file;
	close(file);
	return refuse(ENOMEM);
}

EXPORT int timerfd_settime(int file, int flags, const struct itimerspec *in,
			   struct itimerspec *out)
{
	int result = timers_set(TIMER_FILE, file, flags & TFD_TIMER_ABSTIME, in,
				out);

	return result == TIMER_OF_HOST
		       ? REAL(timerfd_settime)(file, flags, in, out)
		       : result;
}

EXPORT int timerfd_gettime(int file, struct itimerspec *out)
{
	int result = timers_get(TIMER_FILE, file, out);

	return result == TIMER_OF_HOST ? REAL(timerfd_gettime)(file, out)
				       : result;
}

/* Returns the clock of the host's timers. With a counter of sleeps, none of them is armed
 * for longer than a moment. */
static int host_clock(const struct machine *m)
{
	return m->shared->kind == COUNTER_SLEEPS ? CLOCK_REALTIME
						 : CLOCK_MONOTONIC;
}

/* Adds a timer of the host to the table. Returns false if memory is missing. */
static bool add_posix(int clock, timer_t posix, const struct sigevent *event)
{
	struct timer *timer;
	sigset_t saved;

	timers_lock(&saved);
	timer = timer_add(TIMER_POSIX, (intptr_t)posix, clock);
	if (timer) {
		timer->signal = !event ? SIGALRM : 0;
		if (event && (event->sigev_notify == SIGEV_SIGNAL ||
			      event->sigev_notify == SIGEV_THREAD_ID))
			timer->signal = event->sigev_signo;
		if (event && event->sigev_notify == SIGEV_THREAD_ID)
			timer->thread = event->_sigev_un._tid;
	}
	timers_unlock(&saved);
	return timer;
}

EXPORT int timer_create(clockid_t clock, struct sigevent *restrict event,
			timer_t *restrict out)
{
	struct machine *m = machine();
	int number = m ? machine_clock(clock) : -1;
	int result = REAL(timer_create)(number < 0 ? clock : host_clock(m),
					event, out);

	if (result || number < 0 || add_posix(number, *out, event))
		return result;
	REAL(timer_delete)(*out);
	return refuse(EAGAIN);
}

/* The system call's numbers of timers are also those of glibc, except for
 * timers that start a thread. */
long create_kernel_timer(clockid_t clock, struct sigevent *event, int *out)
{
	int number = machine_clock(clock);
	long result = host_call(SYS_timer_create,
				number < 0 ? clock : host_clock(machine()),
				(long)event, (long)out, 0, 0, 0);

	if (result)
		return refuse((int)-result);
	if (number < 0 || add_posix(number, kernel_timer(*out), event))
		return 0;
	host_call(SYS_timer_delete, *out, 0, 0, 0, 0, 0);
	return refuse(EAGAIN);
}

EXPORT int timer_delete(timer_t posix)
{
	struct timer *timer;
	sigset_t saved;

	if (!machine())
		return REAL(timer_delete)(posix);
	timers_lock(&saved);
	timer = timer_find(TIMER_POSIX, (intptr_t)posix);
	if (timer)
		timer_remove(timer);
	timers_unlock(&saved);
	return REAL(timer_delete)(posix);
}

EXPORT int timer_settime(timer_t posix, int flags,
			 const struct itimerspec *restrict in,
			 struct itimerspec *restrict out)
{
	int result = timers_set(TIMER_POSIX, (intptr_t)posix,
				flags & TIMER_ABSTIME, in, out);

	return result == TIMER_OF_HOST
		       ? REAL(timer_settime)(posix, flags, in, out)
		       : result;
}

EXPORT int timer_gettime(timer_t posix, struct itimerspec *out)
{
	int result = timers_get(TIMER_POSIX, (intptr_t)posix, out);

	return result == TIMER_OF_HOST ? REAL(timer_gettime)(posix, out)
				       : result;
}
