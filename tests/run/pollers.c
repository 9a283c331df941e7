/* SPDX-License-Identifier: MIT OR Apache-2.0 */
/*
 * Waits in many threads or processes at once, for spans of 1 to 1.096 s, with a counter of
 * sleeps: each wait takes its span and a cycle of 1 ns.
 *
 *     pollers poll | select | epoll | sem | cond | sleep COUNT threads | processes
 *     pollers timerfd | timer | itimer | alarm COUNT processes
 *
 * The spans of alarm are 1 to 97 s.
 */
#define _GNU_SOURCE
#include "spans.h"

#include <poll.h>
#include <pthread.h>
#include <semaphore.h>
#include <sys/epoll.h>
#include <sys/mman.h>
#include <sys/select.h>
#include <sys/time.h>
#include <sys/timerfd.h>

enum { SPANS = 97 };

static const char *kind;
static sem_t semaphore;
static pthread_mutex_t mutex = PTHREAD_MUTEX_INITIALIZER;
static pthread_cond_t cond = PTHREAD_COND_INITIALIZER;
static struct {
	_Atomic int ended, early, late;
} *counts;

/* The condition variable is the same for all threads. */
static bool wait_for_lock(int64_t span)
{
	struct timespec time = after(CLOCK_REALTIME, span);
	int error = 0;

	if (*kind == 's')
		return sem_timedwait(&semaphore, &time) && errno == ETIMEDOUT;
	pthread_mutex_lock(&mutex);
	error = pthread_cond_timedwait(&cond, &mutex, &time);
	pthread_mutex_unlock(&mutex);
	return error == ETIMEDOUT;
}

static bool wait_for_file(const struct itimerspec *spec)
{
	int file = timerfd_create(CLOCK_MONOTONIC, 0);
	uint64_t count;

	return !timerfd_settime(file, 0, spec, NULL) &&
	       read(file, &count, sizeof(count)) == sizeof(count) && count == 1;
}

static bool set_timer(const struct itimerspec *spec)
{
	struct itimerval micros = { .it_value = { spec->it_value.tv_sec,
						  spec->it_value.tv_nsec / 1000 } };
	timer_t timer;

	if (!strcmp(kind, "itimer"))
		return !setitimer(ITIMER_REAL, &micros, NULL);
	if (!strcmp(kind, "alarm"))
		return !alarm((unsigned int)spec->it_value.tv_sec);
	return !timer_create(CLOCK_MONOTONIC, NULL, &timer) &&
	       !timer_settime(timer, 0, spec, NULL);
}

/* The signal of each of these timers is SIGALRM. */
static bool wait_for_timer(int64_t span)
{
	struct itimerspec spec = { .it_value = span_of(span) };
	sigset_t set;

	if (!strcmp(kind, "timerfd"))
		return wait_for_file(&spec);
	sigemptyset(&set);
	sigaddset(&set, SIGALRM);
	sigprocmask(SIG_BLOCK, &set, NULL);
	return set_timer(&spec) && sigwaitinfo(&set, NULL) == SIGALRM;
}

static bool is_timer(void)
{
	return strstr(kind, "timer") || !strcmp(kind, "alarm");
}

static bool wait_for(int64_t span)
{
	struct timeval micros = { span / BILLION, span % BILLION / 1000 };
	struct timespec time = span_of(span);
	struct epoll_event event;

	if (!strcmp(kind, "poll"))
		return !poll(NULL, 0, (int)(span / MILLION));
	if (!strcmp(kind, "select"))
		return !select(0, NULL, NULL, NULL, &micros);
	if (!strcmp(kind, "epoll"))
		return !epoll_wait(epoll_create1(0), &event, 1,
				   (int)(span / MILLION));
	if (!strcmp(kind, "sleep"))
		return !nanosleep(&time, NULL);
	return is_timer() ? wait_for_timer(span) : wait_for_lock(span);
}

static int64_t span_of_number(intptr_t number)
{
	if (!strcmp(kind, "alarm"))
		return (1 + number % SPANS) * BILLION;
	return (1000 + number % SPANS) * MILLION;
}

static void *wait_once(void *argument)
{
	int64_t span = span_of_number((intptr_t)argument);
	int64_t before = nanos(now(CLOCK_MONOTONIC)), took;

	if (!wait_for(span))
		perror("pollers");
	took = nanos(now(CLOCK_MONOTONIC)) - before;
	counts->ended++;
	counts->early += took < span;
	counts->late += took > span + 1;
	return NULL;
}

static void start_threads(int count)
{
	pthread_t *threads = calloc((size_t)count, sizeof(*threads));

	for (int i = 0; i < count; i++) {
		if (pthread_create(&threads[i], NULL, wait_once,
				   (void *)(intptr_t)i))
			perror("pollers");
	}
	for (int i = 0; i < count; i++)
		pthread_join(threads[i], NULL);
	free(threads);
}

static void start_processes(int count)
{
	for (int i = 0; i < count; i++) {
		if (!fork()) {
			wait_once((void *)(intptr_t)i);
			_exit(0);
		}
	}
	while (wait(NULL) > 0)
		;
}

int main(int count, char **words)
{
	if (count != 4)
		return 2;
	kind = words[1];
	counts = mmap(NULL, sizeof(*counts), PROT_READ | PROT_WRITE,
		      MAP_SHARED | MAP_ANONYMOUS, -1, 0);
	sem_init(&semaphore, 0, 0);
	if (*words[3] == 't')
		start_threads(atoi(words[2]));
	else
		start_processes(atoi(words[2]));
	printf("ended %d, early %d, late %d\n", counts->ended, counts->early,
	       counts->late);
	return 0;
}
