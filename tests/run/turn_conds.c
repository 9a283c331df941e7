/* turn_conds: the results of the calls that wait for condition variables and start threads and
 * processes, and of waits that are cancelled. Prints the line of each that is wrong. Ends with their
 * number. */
#define _GNU_SOURCE
#include <errno.h>
#include <pthread.h>
#include <semaphore.h>
#include <signal.h>
#include <spawn.h>
#include <stdlib.h>
#include <string.h>
#include <sys/wait.h>
#include <threads.h>
#include <time.h>
#include <unistd.h>

#include "turn_checks.h"

static pthread_mutex_t mutex = PTHREAD_MUTEX_INITIALIZER;
static pthread_cond_t cond = PTHREAD_COND_INITIALIZER;
static int woken;

static void *wait_cond(void *unused)
{
	pthread_mutex_lock(&mutex);
	pthread_cond_wait(&cond, &mutex);
	woken++;
	pthread_mutex_unlock(&mutex);
	return unused;
}

static void *signal_later(void *unused)
{
	nap(5);
	pthread_cond_signal(&cond);
	return unused;
}

static void check_timed_conds(void)
{
	struct timespec time = { 0, 1000000000 };
	pthread_t thread;
	long start;

	pthread_mutex_lock(&mutex);
	CHECK(pthread_cond_timedwait(&cond, &mutex, &time) == EINVAL);
	time.tv_nsec = -1;
	CHECK(pthread_cond_clockwait(&cond, &mutex, CLOCK_MONOTONIC, &time) == EINVAL);
	time = after(CLOCK_MONOTONIC, 0);
	CHECK(pthread_cond_clockwait(&cond, &mutex, CLOCK_BOOTTIME, &time) == EINVAL);
	time = (struct timespec){ -1, 0 };
	CHECK(pthread_cond_timedwait(&cond, &mutex, &time) == ETIMEDOUT);
	for (int i = 0; i < 4; i++) {
		start = millis();
		time = after(i % 2 ? CLOCK_MONOTONIC : CLOCK_REALTIME, i < 2 ? 3000000 : 9000000);
		pthread_create(&thread, NULL, signal_later, NULL);
		errno = 77;
		CHECK((i % 2 ? pthread_cond_clockwait(&cond, &mutex, CLOCK_MONOTONIC, &time)
			     : pthread_cond_timedwait(&cond, &mutex, &time)) ==
		      (i < 2 ? ETIMEDOUT : 0));
		CHECK(errno == 77);
		CHECK(millis() - start == (i < 2 ? 3 : 5));
		CHECK(pthread_mutex_trylock(&mutex) == EBUSY); /* it is locked again */
		pthread_join(thread, NULL);
	}
	pthread_mutex_unlock(&mutex);
}

/* The attributes of a variable name the clock of its waits. */
static void check_clock_of_cond(void)
{
	pthread_condattr_t attributes;
	pthread_cond_t other;
	struct timespec time = after(CLOCK_MONOTONIC, 3000000);
	long start = millis();

	pthread_condattr_init(&attributes);
	pthread_condattr_setclock(&attributes, CLOCK_MONOTONIC);
	pthread_cond_init(&other, &attributes);
	pthread_mutex_lock(&mutex);
	CHECK(pthread_cond_timedwait(&other, &mutex, &time) == ETIMEDOUT);
	CHECK(millis() - start == 3);
	pthread_mutex_unlock(&mutex);
	CHECK(!pthread_cond_destroy(&other));
}

static void check_conds(void)
{
	pthread_mutex_t *checked = make_mutex(PTHREAD_MUTEX_ERRORCHECK, 0, 0);
	pthread_t threads[3];

	CHECK(pthread_cond_wait(&cond, checked) == EPERM);
	for (int i = 0; i < 3; i++)
		pthread_create(&threads[i], NULL, wait_cond, NULL);
	nap(1);
	CHECK(!pthread_cond_signal(&cond));
	nap(1);
	CHECK(woken == 1);
	CHECK(!pthread_cond_broadcast(&cond));
	nap(1);
	CHECK(woken == 3);
	for (int i = 0; i < 3; i++)
		pthread_join(threads[i], NULL);
	CHECK(!pthread_cond_destroy(&cond));
}

static void unlock(void *lock)
{
	CHECK(!pthread_mutex_unlock(lock));
}

static void *wait_for_cancel(void *semaphore)
{
	if (semaphore)
		sem_wait(semaphore);
	pthread_mutex_lock(&mutex);
	pthread_cleanup_push(unlock, &mutex);
	for (;;)
		pthread_cond_wait(&cond, &mutex);
	pthread_cleanup_pop(0);
	return NULL;
}

static void *wait_timed_for_cancel(void *unused)
{
	struct timespec time = after(CLOCK_REALTIME, 999999999);

	(void)unused;
	pthread_mutex_lock(&mutex);
	pthread_cleanup_push(unlock, &mutex);
	for (;;)
		pthread_cond_timedwait(&cond, &mutex, &time);
	pthread_cleanup_pop(0);
	return NULL;
}

static void check_cancels(void)
{
	pthread_t thread;
	void *value = NULL;
	sem_t semaphore;

	sem_init(&semaphore, 0, 0);
	for (int i = 0; i < 3; i++) {
		pthread_create(&thread, NULL, i == 2 ? wait_timed_for_cancel : wait_for_cancel,
			       i ? NULL : &semaphore);
		nap(1);
		CHECK(!pthread_cancel(thread));
		CHECK(!pthread_join(thread, &value) && value == PTHREAD_CANCELED);
		CHECK(!pthread_mutex_trylock(&mutex) && !pthread_mutex_unlock(&mutex));
	}
}

static mtx_t c11_mutex;
static cnd_t c11_cond;

static int hold_c11(void *unused)
{
	(void)unused;
	mtx_lock(&c11_mutex);
	cnd_signal(&c11_cond);
	nap(5);
	mtx_unlock(&c11_mutex);
	return 9;
}

static void check_c11(void)
{
	struct timespec time;
	thrd_t thread;
	long start;
	int end = 0;

	mtx_init(&c11_mutex, mtx_timed);
	cnd_init(&c11_cond);
	CHECK(mtx_lock(&c11_mutex) == thrd_success);
	start = millis();
	CHECK(thrd_create(&thread, hold_c11, NULL) == thrd_success);
	CHECK(cnd_wait(&c11_cond, &c11_mutex) == thrd_success && millis() - start == 5);
	time = after(CLOCK_REALTIME, 3000000);
	CHECK(cnd_timedwait(&c11_cond, &c11_mutex, &time) == thrd_timedout);
	CHECK(millis() - start == 8);
	CHECK(cnd_broadcast(&c11_cond) == thrd_success);
	CHECK(mtx_unlock(&c11_mutex) == thrd_success);
	CHECK(thrd_join(thread, &end) == thrd_success && end == 9);
	mtx_init(&c11_mutex, mtx_plain | mtx_recursive);
	CHECK(mtx_unlock(&c11_mutex) == thrd_error);
	thrd_yield();
}

/* A child of vfork has the memory of its parent, and posix_spawn and system use it. */
static void check_processes(void)
{
	char *words[] = { "sh", "-c", "exit 5", NULL };
	int status = 0;
	pid_t child = vfork();

	if (!child) {
		for (int i = 0; i < 3000; i++)
			if (write(-1, "", 0) != -1 || errno != EBADF)
				_exit(1);
		_exit(6);
	}
	CHECK(waitpid(child, &status, 0) == child && WEXITSTATUS(status) == 6);
	CHECK(!posix_spawnp(&child, "sh", NULL, NULL, words, environ));
	CHECK(waitpid(child, &status, 0) == child && WEXITSTATUS(status) == 5);
	CHECK(WEXITSTATUS(system("exit 4")) == 4);
}

static void *give(void *value)
{
	return value;
}

static void check_threads(void)
{
	struct { char bytes[16]; } *few = NULL;
	pthread_attr_t attributes;
	pthread_t thread;
	void *value = NULL;

	(void)few;
	CHECK(!pthread_create(&thread, NULL, give, &value));
	CHECK(!pthread_join(thread, &value) && value == &value);
	CHECK(pthread_join(pthread_self(), NULL) == EDEADLK);
	pthread_attr_init(&attributes);
	pthread_attr_setstacksize(&attributes, (size_t)1 << 46);
	CHECK(pthread_create(&thread, &attributes, give, NULL) == EAGAIN);
}

int main(void)
{
	check_timed_conds();
	check_clock_of_cond();
	check_conds();
	check_cancels();
	check_c11();
	check_processes();
	check_threads();
	return faults;
}
