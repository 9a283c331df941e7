/* SPDX-License-Identifier: MIT OR Apache-2.0 */
/*
 * Waits for times of REALTIME, which a command moves, and prints for each wait by how many
 * ns MONOTONIC has moved on.
 *
 *     moved settime | settimeofday | setoffset | setoffset_nano SEC
 *         all waits are for 200 s from now; after 0.25 s, the call sets REALTIME to 300 s
 *         later. Three waits for 1 s of MONOTONIC don't end by it.
 *     moved insert | delete BEFORE MS..
 *         a second is inserted or deleted at the end of the day, and the waits begin BEFORE
 *         ms, or 0 or less after the discipline was asked for it. Each wait ends this many
 *         ms after midnight, and before it if the number is negative.
 */
#define _GNU_SOURCE
#include "spans.h"

#include <linux/futex.h>
#include <pthread.h>
#include <semaphore.h>
#include <sys/syscall.h>
#include <sys/time.h>
#include <sys/timerfd.h>
#include <sys/timex.h>

static pthread_mutex_t taken = PTHREAD_MUTEX_INITIALIZER;

static bool by_sleep(const struct timespec *time)
{
	return !clock_nanosleep(CLOCK_REALTIME, TIMER_ABSTIME, time, NULL);
}

static bool by_timerfd(const struct timespec *time)
{
	struct itimerspec spec = { .it_value = *time };
	int file = timerfd_create(CLOCK_REALTIME, 0);
	uint64_t count;

	return !timerfd_settime(file, TFD_TIMER_ABSTIME, &spec, NULL) &&
	       read(file, &count, sizeof(count)) == sizeof(count) && count == 1;
}

static bool by_sem(const struct timespec *time)
{
	sem_t semaphore;

	sem_init(&semaphore, 0, 0);
	return sem_timedwait(&semaphore, time) && errno == ETIMEDOUT;
}

/* A step back, as an inserted second is, may let it return early. */
static bool by_cond(const struct timespec *time)
{
	pthread_mutex_t mutex = PTHREAD_MUTEX_INITIALIZER;
	pthread_cond_t cond = PTHREAD_COND_INITIALIZER;
	int error = 0;

	pthread_mutex_lock(&mutex);
	while (!error)
		error = pthread_cond_timedwait(&cond, &mutex, time);
	return error == ETIMEDOUT;
}

static bool by_mutex(const struct timespec *time)
{
	return pthread_mutex_timedlock(&taken, time) == ETIMEDOUT;
}

static bool by_mq(const struct timespec *time)
{
	char text[1];

	return mq_timedreceive(open_queue(), text, 1, NULL, time) < 0 &&
	       errno == ETIMEDOUT;
}

static bool by_futex(const struct timespec *time)
{
	uint32_t word = 0;

	return syscall(SYS_futex, &word,
		       FUTEX_WAIT_BITSET | FUTEX_CLOCK_REALTIME, 0, time, NULL,
		       FUTEX_BITSET_MATCH_ANY) < 0 &&
	       errno == ETIMEDOUT;
}

/* These are for one second of MONOTONIC. */

static bool by_span(const struct timespec *time)
{
	struct timespec span = { 1, 0 };

	(void)time;
	return !nanosleep(&span, NULL);
}

static bool by_monotonic_cond(const struct timespec *time)
{
	struct timespec until = after(CLOCK_MONOTONIC, BILLION);
	pthread_mutex_t mutex = PTHREAD_MUTEX_INITIALIZER;
	pthread_cond_t cond = PTHREAD_COND_INITIALIZER;

	(void)time;
	pthread_mutex_lock(&mutex);
	return pthread_cond_clockwait(&cond, &mutex, CLOCK_MONOTONIC,
				      &until) == ETIMEDOUT;
}

/* A span ends on MONOTONIC, also that of a timer of REALTIME. */
static bool by_real_span(const struct timespec *time)
{
	struct itimerspec spec = { .it_value = { 1, 0 } };
	int file = timerfd_create(CLOCK_REALTIME, 0);
	uint64_t count;

	(void)time;
	return !timerfd_settime(file, 0, &spec, NULL) &&
	       read(file, &count, sizeof(count)) == sizeof(count);
}

static const struct {
	const char *name;
	bool (*wait)(const struct timespec *time);
} WAITS[] = {
	{ "sleep", by_sleep },	 { "timerfd", by_timerfd },
	{ "sem", by_sem },	 { "cond", by_cond },
	{ "mutex", by_mutex },	 { "mq", by_mq },
	{ "futex", by_futex },	 { "span", by_span },
	{ "monotonic_cond", by_monotonic_cond }, { "real_span", by_real_span },
};
enum { WAITS_COUNT = sizeof(WAITS) / sizeof(*WAITS), OF_TIMES = 7 };

/* A wait in its own process. */
static int start(int wait, const struct timespec *time)
{
	int64_t before, span;
	int ends[2];

	if (pipe(ends))
		perror("moved");
	if (!fork()) {
		before = nanos(now(CLOCK_MONOTONIC));
		span = WAITS[wait].wait(time)
			       ? nanos(now(CLOCK_MONOTONIC)) - before
			       : -1;
		_exit(write(ends[1], &span, sizeof(span)) != sizeof(span));
	}
	close(ends[1]);
	return ends[0];
}

static void print_span(int wait, const char *what, int file)
{
	int64_t span = -2;

	if (read(file, &span, sizeof(span)) != sizeof(span))
		perror("moved");
	printf("%s %s %lld\n", WAITS[wait].name, what, (long long)span);
}

/* Moves REALTIME by 300 s. */
static int set(const char *how)
{
	struct timespec time = after(CLOCK_REALTIME, INT64_C(300000000000));
	struct timeval micros = { time.tv_sec, time.tv_nsec / 1000 };
	struct timex request = { .modes = ADJ_SETOFFSET,
				 .time = { 299, 999999 } };

	if (!strcmp(how, "settime"))
		return clock_settime(CLOCK_REALTIME, &time);
	if (!strcmp(how, "settimeofday"))
		return settimeofday(&micros, NULL);
	if (!strcmp(how, "setoffset"))
		return adjtimex(&request);
	request.modes |= ADJ_NANO;
	return clock_adjtime(CLOCK_REALTIME, &request);
}

static void set_later(const char *how)
{
	struct timespec time = after(CLOCK_REALTIME, INT64_C(200000000000)),
			span = { 0, 250000000 };
	int files[WAITS_COUNT];

	for (int i = 0; i < WAITS_COUNT; i++)
		files[i] = start(i, &time);
	nanosleep(&span, NULL);
	if (set(how) < 0)
		perror("moved");
	for (int i = 0; i < WAITS_COUNT; i++)
		print_span(i, how, files[i]);
}

/* Asks for a leap second at the end of the day, `before` ns after the waits have begun. */
static void leap(const char *how, int64_t before, int count, char **millis)
{
	struct timex request = { .modes = ADJ_STATUS,
				 .status = *how == 'i' ? STA_INS : STA_DEL };
	int64_t midnight = (now(CLOCK_REALTIME).tv_sec / 86400 + 1) * 86400;
	struct timespec pause = span_of(before), time;
	int files[16][OF_TIMES];

	if (before <= 0 && adjtimex(&request) < 0)
		perror("moved");
	for (int k = 0; k < count; k++) {
		time = span_of(midnight * BILLION +
			       atoll(millis[k]) * MILLION);
		for (int i = 0; i < OF_TIMES; i++)
			files[k][i] = start(i, &time);
	}
	if (before > 0 && (nanosleep(&pause, NULL) || adjtimex(&request) < 0))
		perror("moved");
	for (int k = 0; k < count; k++) {
		for (int i = 0; i < OF_TIMES; i++)
			print_span(i, millis[k], files[k][i]);
	}
}

int main(int count, char **words)
{
	pthread_mutex_lock(&taken);
	if (count > 3)
		leap(words[1], atoll(words[2]) * MILLION, count - 3, words + 3);
	else
		set_later(words[1]);
	while (wait(NULL) > 0)
		;
	return 0;
}
