/* SPDX-License-Identifier: MIT OR Apache-2.0 */
/*
 * turn_alone: a thread that has no turn makes a call, and then notes that. It has waited by a call
 * that no library sees, or was started by the C library's own pthread_create. Prints what the thread
 * that has the turn finds by then: without the turn, no call returns.
 */
#define _GNU_SOURCE
#include <dlfcn.h>
#include <pthread.h>
#include <semaphore.h>
#include <stdatomic.h>
#include <stdio.h>
#include <stdlib.h>
#include <sys/syscall.h>
#include <threads.h>
#include <time.h>

enum { YIELDS = 50, LOOKS = 100000 }; /* some ms, and little more on a busy machine */

/* A system call that no library sees. */
static long host(long number, atomic_int *word, long operation, long value)
{
	register long r10 __asm__("r10") = 0;
	long result;

	__asm__ volatile("syscall"
			 : "=a"(result)
			 : "a"(number), "D"(word), "S"(operation), "d"(value), "r"(r10)
			 : "rcx", "r11", "memory");
	return result;
}

static pthread_mutex_t mutex = PTHREAD_MUTEX_INITIALIZER;
static pthread_rwlock_t rwlock = PTHREAD_RWLOCK_INITIALIZER;
static mtx_t c11;
static sem_t semaphore;
static atomic_int may_go, has_called;

static void try_mutex(void)
{
	pthread_mutex_trylock(&mutex);
}

static void unlock_mutex(void)
{
	pthread_mutex_unlock(&mutex);
}

static void try_read(void)
{
	pthread_rwlock_tryrdlock(&rwlock);
}

static void unlock_read(void)
{
	pthread_rwlock_unlock(&rwlock);
}

static void try_write(void)
{
	pthread_rwlock_trywrlock(&rwlock);
}

static void try_c11(void)
{
	mtx_trylock(&c11);
}

static void unlock_c11(void)
{
	mtx_unlock(&c11);
}

static void try_semaphore(void)
{
	sem_trywait(&semaphore);
}

static void post_semaphore(void)
{
	sem_post(&semaphore);
}

static void name(void)
{
	pthread_setname_np(pthread_self(), "named");
}

typedef void call(void);

/* What a thread has called before it loses its turn, and what it calls then. */
static const struct {
	call *before, *call;
} CALLS[] = {
	{ NULL, try_mutex },	       { try_mutex, unlock_mutex },   { NULL, try_read },
	{ try_read, unlock_read },     { NULL, try_write },	      { NULL, try_c11 },
	{ try_c11, unlock_c11 },       { NULL, try_semaphore },	      { NULL, post_semaphore },
	{ NULL, name },
};

static void *call_later(void *argument)
{
	long number = (long)argument;

	if (CALLS[number].before)
		CALLS[number].before();
	while (!atomic_load(&may_go))
		host(SYS_futex, &may_go, 0, 0);
	CALLS[number].call();
	atomic_store(&has_called, 1);
	return NULL;
}

static void *call_first(void *unused)
{
	name();
	atomic_store(&has_called, 1);
	return unused;
}

static void make_locks(void)
{
	pthread_mutex_init(&mutex, NULL);
	pthread_rwlock_init(&rwlock, NULL);
	mtx_init(&c11, mtx_plain);
	sem_init(&semaphore, 0, 1);
	atomic_store(&may_go, 0);
	atomic_store(&has_called, 0);
}

/* Gives a thread time without a call of the C library. */
static void show(pthread_t thread)
{
	for (int i = 0; i < YIELDS * LOOKS && !atomic_load(&has_called); i++) {
		if (i % LOOKS == 0)
			host(SYS_sched_yield, NULL, 0, 0);
	}
	printf("%d ", atomic_load(&has_called));
	pthread_join(thread, NULL);
}

int main(void)
{
	static const struct timespec SPAN = { 0, 1000000 };
	int (*create)(pthread_t *, const pthread_attr_t *, void *(*)(void *), void *);
	void *library = dlopen("libc.so.6", RTLD_LAZY);
	pthread_t thread;

	for (size_t i = 0; i < sizeof(CALLS) / sizeof(*CALLS); i++) {
		make_locks();
		pthread_create(&thread, NULL, call_later, (void *)i);
		nanosleep(&SPAN, NULL);
		atomic_store(&may_go, 1);
		host(SYS_futex, &may_go, 1, 1);
		show(thread);
	}
	make_locks();
	*(void **)&create = dlsym(library, "pthread_create");
	if (!create || create(&thread, NULL, call_first, NULL))
		return 1;
	show(thread);
	puts("");
	return 0;
}
