/* turn_locks: the results of the calls that lock, with all kinds of locks and semaphores. Prints the line
 * of each that is wrong. Ends with their number. */
#define _GNU_SOURCE
#include <errno.h>
#include <pthread.h>
#include <semaphore.h>
#include <signal.h>
#include <stdlib.h>
#include <string.h>
#include <sys/wait.h>
#include <time.h>
#include <unistd.h>

#include "turn_checks.h"

/* What another thread does with a lock: it has it for 5 ms. */
static int found;

static void *hold_mutex(void *mutex)
{
	found = pthread_mutex_lock(mutex);
	nap(5);
	pthread_mutex_unlock(mutex);
	return "held";
}

static void *hold_rwlock(void *lock)
{
	found = pthread_rwlock_wrlock(lock);
	nap(5);
	pthread_rwlock_unlock(lock);
	return "held";
}

static void *leave_mutex(void *mutex)
{
	pthread_mutex_lock(mutex);
	return NULL;
}

static void check_mutexes(void)
{
	static const int KINDS[] = { PTHREAD_MUTEX_NORMAL, PTHREAD_MUTEX_RECURSIVE,
				     PTHREAD_MUTEX_ERRORCHECK, PTHREAD_MUTEX_ADAPTIVE_NP };
	pthread_t thread;
	void *value;
	long start;

	for (int i = 0; i < 8; i++) {
		pthread_mutex_t *mutex = make_mutex(KINDS[i % 4], i / 4, 0);

		CHECK(!pthread_create(&thread, NULL, hold_mutex, mutex));
		nap(1);
		start = millis();
		CHECK(pthread_mutex_trylock(mutex) == EBUSY);
		CHECK(!pthread_mutex_lock(mutex));
		CHECK(millis() - start == 4);
		if (i % 4 == 1)
			CHECK(!pthread_mutex_lock(mutex) && !pthread_mutex_unlock(mutex));
		if (i % 4 == 2)
			CHECK(pthread_mutex_lock(mutex) == EDEADLK);
		CHECK(!pthread_mutex_unlock(mutex));
		if (i % 4 == 1 || i % 4 == 2)
			CHECK(pthread_mutex_unlock(mutex) == EPERM);
		value = NULL;
		CHECK(!pthread_join(thread, &value) && value && !strcmp(value, "held"));
		CHECK(!found);
		CHECK(!pthread_mutex_destroy(mutex));
	}
}

static void check_robust(void)
{
	pthread_mutex_t *mutex = make_mutex(PTHREAD_MUTEX_NORMAL, 1, PTHREAD_MUTEX_ROBUST);
	pthread_t thread;

	pthread_create(&thread, NULL, leave_mutex, mutex);
	pthread_join(thread, NULL);
	CHECK(pthread_mutex_lock(mutex) == EOWNERDEAD);
	CHECK(!pthread_mutex_unlock(mutex));
	CHECK(pthread_mutex_lock(mutex) == ENOTRECOVERABLE);
}

/* Another process has a shared mutex. */
static void check_shared(void)
{
	pthread_mutex_t *mutex = make_mutex(PTHREAD_MUTEX_NORMAL, 1, 0);
	pid_t child = fork();
	long start;
	int status;

	if (!child) {
		hold_mutex(mutex);
		_exit(found + 7);
	}
	nap(1);
	start = millis();
	CHECK(!pthread_mutex_lock(mutex));
	CHECK(millis() - start == 4);
	CHECK(!pthread_mutex_unlock(mutex));
	CHECK(waitpid(child, &status, 0) == child && WEXITSTATUS(status) == 7);
	errno = 0;
	CHECK(waitpid(child, &status, 0) == -1 && errno == ECHILD);
}

static void check_rwlocks(void)
{
	pthread_rwlock_t lock = PTHREAD_RWLOCK_INITIALIZER;
	pthread_t thread;
	long start;

	CHECK(!pthread_rwlock_wrlock(&lock));
	CHECK(pthread_rwlock_wrlock(&lock) == EDEADLK && pthread_rwlock_rdlock(&lock) == EDEADLK);
	CHECK(!pthread_rwlock_unlock(&lock));
	for (int i = 0; i < 2; i++) {
		pthread_create(&thread, NULL, hold_rwlock, &lock);
		nap(1);
		start = millis();
		CHECK(!(i ? pthread_rwlock_rdlock(&lock) : pthread_rwlock_wrlock(&lock)));
		CHECK(millis() - start == 4);
		CHECK(!pthread_rwlock_unlock(&lock));
		CHECK(!pthread_join(thread, NULL) && !found);
	}
	CHECK(!pthread_rwlock_rdlock(&lock) && !pthread_rwlock_rdlock(&lock));
	CHECK(!pthread_rwlock_unlock(&lock) && !pthread_rwlock_unlock(&lock));
}

static void handle(int number)
{
	(void)number;
}

static pthread_t main_thread;

static void *post_later(void *semaphore)
{
	nap(5);
	sem_post(semaphore);
	return NULL;
}

static void *kill_later(void *unused)
{
	nap(5);
	pthread_kill(main_thread, SIGUSR1);
	return unused;
}

/* With SA_RESTART a handler doesn't end the wait, and otherwise it does. */
static void check_semaphores(void)
{
	struct sigaction action = { .sa_handler = handle };
	pthread_t thread, other;
	struct timespec time;
	sem_t semaphore;
	long start;

	for (int is_shared = 0; is_shared < 2; is_shared++) {
		sem_init(&semaphore, is_shared, 1);
		errno = 77;
		CHECK(!sem_wait(&semaphore) && errno == 77);
		start = millis();
		pthread_create(&thread, NULL, post_later, &semaphore);
		CHECK(!sem_wait(&semaphore) && millis() - start == 5 && errno == 77);
		pthread_join(thread, NULL);
		action.sa_flags = 0;
		sigaction(SIGUSR1, &action, NULL);
		pthread_create(&thread, NULL, kill_later, NULL);
		CHECK(sem_wait(&semaphore) == -1 && errno == EINTR);
		pthread_join(thread, NULL);
		action.sa_flags = SA_RESTART;
		sigaction(SIGUSR1, &action, NULL);
		pthread_create(&thread, NULL, kill_later, NULL);
		nap(1);
		pthread_create(&other, NULL, post_later, &semaphore);
		start = millis();
		CHECK(!sem_wait(&semaphore) && millis() - start == 5);
		pthread_join(thread, NULL);
		pthread_join(other, NULL);
		time = after(CLOCK_REALTIME, 3000000);
		start = millis();
		CHECK(sem_timedwait(&semaphore, &time) == -1 && errno == ETIMEDOUT);
		CHECK(millis() - start == 3);
		CHECK(sem_trywait(&semaphore) == -1 && errno == EAGAIN);
	}
}

int main(void)
{
	main_thread = pthread_self();
	check_mutexes();
	check_robust();
	check_shared();
	check_rwlocks();
	check_semaphores();
	return faults;
}
