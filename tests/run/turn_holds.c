/* turn_holds blocks|spins: a thread that has the turn while another one needs it. It waits by a call
 * that no library sees, or spins. Others wait for a lock and a condition variable meanwhile. Prints
 * what happened. */
#define _GNU_SOURCE
#include <pthread.h>
#include <stdatomic.h>
#include <stdio.h>
#include <string.h>
#include <sys/syscall.h>
#include <time.h>
#include <unistd.h>

static atomic_int is_set;

/* A system call that no library sees. */
static long futex(atomic_int *word, long operation, long value)
{
	register long r10 __asm__("r10") = 0;
	long result;

	__asm__ volatile("syscall"
			 : "=a"(result)
			 : "a"(SYS_futex), "D"(word), "S"(operation), "d"(value), "r"(r10)
			 : "rcx", "r11", "memory");
	return result;
}

static pthread_mutex_t taken = PTHREAD_MUTEX_INITIALIZER, mutex = PTHREAD_MUTEX_INITIALIZER;
static pthread_cond_t cond = PTHREAD_COND_INITIALIZER;
static int are_waiting = 1;

static void *set(void *unused)
{
	struct timespec now;

	clock_gettime(CLOCK_REALTIME, &now);
	atomic_store(&is_set, 1);
	futex(&is_set, 1, 1);
	return unused;
}

/* These wait while turns end. */
static void *lock_taken(void *unused)
{
	pthread_mutex_lock(&taken);
	pthread_mutex_unlock(&taken);
	puts("locked");
	return unused;
}

static void *wait_cond(void *unused)
{
	pthread_mutex_lock(&mutex);
	while (are_waiting)
		pthread_cond_wait(&cond, &mutex);
	pthread_mutex_unlock(&mutex);
	puts("woken");
	return unused;
}

int main(int count, char **words)
{
	static const struct timespec SPAN = { 1, 0 };
	pthread_t setter, locker, waiter;

	if (count != 2)
		return 2;
	pthread_mutex_lock(&taken);
	pthread_create(&locker, NULL, lock_taken, NULL);
	pthread_create(&waiter, NULL, wait_cond, NULL);
	nanosleep(&SPAN, NULL);
	pthread_create(&setter, NULL, set, NULL);
	if (!strcmp(words[1], "blocks"))
		while (!atomic_load(&is_set))
			futex(&is_set, 0, 0);
	else
		while (!atomic_load(&is_set))
			;
	puts("set");
	pthread_mutex_unlock(&taken);
	pthread_join(locker, NULL);
	pthread_mutex_lock(&mutex);
	are_waiting = 0;
	pthread_cond_signal(&cond);
	pthread_mutex_unlock(&mutex);
	pthread_join(waiter, NULL);
	pthread_join(setter, NULL);
	return 0;
}
