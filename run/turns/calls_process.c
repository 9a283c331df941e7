/* SPDX-License-Identifier: MIT OR Apache-2.0 */
/* calls_process.c - the calls that start threads and timers, and wait for threads, processes and
 * signals. */
#define _GNU_SOURCE
#include "files.h"

#include <mqueue.h>
#include <pthread.h>
#include <sched.h>
#include <signal.h>
#include <spawn.h>
#include <stdio.h>
#include <stdlib.h>
#include <sys/msg.h>
#include <sys/sem.h>
#include <sys/time.h>
#include <sys/timerfd.h>
#include <sys/wait.h>
#include <threads.h>
#include <time.h>
#include <unistd.h>

/* What a new thread runs when it has the turn. */
struct begin {
	void *(*function)(void *);
	int (*c11)(void *);
	void *argument;
};

static struct begin take_begin(void *memory)
{
	struct begin begin = *(struct begin *)memory;

	turn_need(NULL);
	free(memory);
	return begin;
}

static void *begin_thread(void *memory)
{
	struct begin begin = take_begin(memory);

	return begin.function(begin.argument);
}

static int begin_c11(void *memory)
{
	struct begin begin = take_begin(memory);

	return begin.c11(begin.argument);
}

static struct begin *keep_begin(struct begin begin)
{
	struct begin *memory = malloc(sizeof(*memory));

	if (memory)
		*memory = begin;
	return memory;
}

EXPORT int pthread_create(pthread_t *thread, const pthread_attr_t *attributes,
			  void *(*function)(void *), void *argument)
{
	struct begin *begin;
	int error;

	if (!turn_is_for(CALLER))
		return REAL(pthread_create)(thread, attributes, function, argument);
	begin = keep_begin((struct begin){ .function = function, .argument = argument });
	if (!begin)
		return EAGAIN;
	error = REAL(pthread_create)(thread, attributes, begin_thread, begin);
	if (error)
		free(begin);
	turn_need(CALLER);
	return error;
}

EXPORT int thrd_create(thrd_t *thread, thrd_start_t function, void *argument)
{
	struct begin *begin;
	int result;

	if (!turn_is_for(CALLER))
		return REAL(thrd_create)(thread, function, argument);
	begin = keep_begin((struct begin){ .c11 = function, .argument = argument });
	if (!begin)
		return thrd_nomem;
	result = REAL(thrd_create)(thread, begin_c11, begin);
	if (result != thrd_success)
		free(begin);
	turn_need(CALLER);
	return result;
}

/* jemalloc finds the C library's own pthread_create. Its threads make this call first. */
BEFORE(int, pthread_setname_np, (pthread_t thread, const char *name), (thread, name))

/* A thread that yields lets another one go on, also in a loop. */
EXPORT int sched_yield(void)
{
	int result = REAL(sched_yield)();

	turn_pass(CALLER);
	return result;
}

EXPORT void thrd_yield(void)
{
	REAL(thrd_yield)();
	turn_pass(CALLER);
}

AFTER(int, pthread_join, (pthread_t thread, void **end), (thread, end))
AFTER(int, pthread_timedjoin_np, (pthread_t thread, void **end, const struct timespec *time),
      (thread, end, time))
AFTER(int, pthread_clockjoin_np,
      (pthread_t thread, void **end, clockid_t clock, const struct timespec *time),
      (thread, end, clock, time))
AFTER(int, thrd_join, (thrd_t thread, int *end), (thread, end))

AFTER(pid_t, wait, (int *status), (status))
AFTER(pid_t, waitpid, (pid_t process, int *status, int options), (process, status, options))
AFTER(int, waitid, (idtype_t type, id_t id, siginfo_t *info, int options),
      (type, id, info, options))
AFTER(pid_t, wait3, (int *status, int options, struct rusage *usage), (status, options, usage))
AFTER(pid_t, wait4, (pid_t process, int *status, int options, struct rusage *usage),
      (process, status, options, usage))
AFTER(int, system, (const char *command), (command))
GIVES(int, pclose, (FILE * file), (file))

AFTER(int, nanosleep, (const struct timespec *span, struct timespec *rest), (span, rest))
AFTER(int, clock_nanosleep,
      (clockid_t clock, int flags, const struct timespec *time, struct timespec *rest),
      (clock, flags, time, rest))
AFTER(int, usleep, (useconds_t micros), (micros))
AFTER(unsigned int, sleep, (unsigned int seconds), (seconds))
AFTER(int, thrd_sleep, (const struct timespec *span, struct timespec *rest), (span, rest))

AFTER(int, pause, (void), ())
AFTER(int, sigsuspend, (const sigset_t *mask), (mask))
AFTER(int, sigwait, (const sigset_t *restrict set, int *restrict number), (set, number))
AFTER(int, sigwaitinfo, (const sigset_t *restrict set, siginfo_t *restrict info), (set, info))
AFTER(int, sigtimedwait,
      (const sigset_t *restrict set, siginfo_t *restrict info,
       const struct timespec *restrict span),
      (set, info, span))
/* A process that is killed has ended, and a handler has run until its first call. */
PASS(int, kill, (pid_t process, int number), (process, number))
PASS(int, killpg, (pid_t group, int number), (group, number))
PASS(int, tgkill, (pid_t process, pid_t thread, int number), (process, thread, number))
PASS(int, sigqueue, (pid_t process, int number, const union sigval value), (process, number, value))
PASS(int, pthread_kill, (pthread_t thread, int number), (thread, number))
PASS(int, pthread_sigqueue, (pthread_t thread, int number, const union sigval value),
     (thread, number, value))
PASS(int, pthread_cancel, (pthread_t thread), (thread))

/* The child has executed its program, and so has closed the files that this one doesn't inherit. */
PASS(int, posix_spawn,
     (pid_t * child, const char *path, const posix_spawn_file_actions_t *actions,
      const posix_spawnattr_t *attributes, char *const words[], char *const environment[]),
     (child, path, actions, attributes, words, environment))
PASS(int, posix_spawnp,
     (pid_t * child, const char *name, const posix_spawn_file_actions_t *actions,
      const posix_spawnattr_t *attributes, char *const words[], char *const environment[]),
     (child, name, actions, attributes, words, environment))
PASS(FILE *, popen, (const char *command, const char *type), (command, type))

AFTER(int, timer_create, (clockid_t clock, struct sigevent *event, timer_t *timer),
      (clock, event, timer))
AFTER(int, timer_settime,
      (timer_t timer, int flags, const struct itimerspec *time, struct itimerspec *before),
      (timer, flags, time, before))
AFTER(int, timerfd_create, (clockid_t clock, int flags), (clock, flags))
AFTER(int, timerfd_settime,
      (int file, int flags, const struct itimerspec *time, struct itimerspec *before),
      (file, flags, time, before))
AFTER(int, setitimer,
      (__itimer_which_t which, const struct itimerval *time, struct itimerval *before),
      (which, time, before))
AFTER(unsigned int, alarm, (unsigned int seconds), (seconds))

GIVES(int, mq_send, (mqd_t queue, const char *bytes, size_t size, unsigned int priority),
      (queue, bytes, size, priority))
GIVES(ssize_t, mq_receive,
      (mqd_t queue, char *restrict bytes, size_t size, unsigned int *restrict priority),
      (queue, bytes, size, priority))
GIVES(int, mq_timedsend,
      (mqd_t queue, const char *bytes, size_t size, unsigned int priority,
       const struct timespec *time),
      (queue, bytes, size, priority, time))
GIVES(ssize_t, mq_timedreceive,
      (mqd_t queue, char *restrict bytes, size_t size, unsigned int *restrict priority,
       const struct timespec *restrict time),
      (queue, bytes, size, priority, time))
GIVES(int, msgsnd, (int queue, const void *bytes, size_t size, int flags),
      (queue, bytes, size, flags))
GIVES(ssize_t, msgrcv, (int queue, void *bytes, size_t size, long type, int flags),
      (queue, bytes, size, type, flags))
GIVES(int, semop, (int set, struct sembuf *operations, size_t count), (set, operations, count))
GIVES(int, semtimedop,
      (int set, struct sembuf *operations, size_t count, const struct timespec *span),
      (set, operations, count, span))
