/* turns NAME FILE: four threads that lock, wait, signal, yield, sleep, and read what others write.
 * Each appends a line to FILE after each step. A child does the same. Then prints how often the
 * threads found a lock that was taken. */
#define _GNU_SOURCE
#include <fcntl.h>
#include <pthread.h>
#include <sched.h>
#include <semaphore.h>
#include <stdio.h>
#include <string.h>
#include <sys/wait.h>
#include <threads.h>
#include <time.h>
#include <unistd.h>

enum { THREADS = 4, STEPS = 24, KINDS = 8 };

static pthread_mutex_t mutex = PTHREAD_MUTEX_INITIALIZER;
static pthread_cond_t cond = PTHREAD_COND_INITIALIZER;
static pthread_rwlock_t rwlock = PTHREAD_RWLOCK_INITIALIZER;
static sem_t semaphore;
static int file, ends[2], taken, rounds;
static const char *name;

static void note(int thread, int step, const char *what)
{
	struct timespec now;
	char line[80];

	clock_gettime(CLOCK_MONOTONIC, &now);
	snprintf(line, sizeof(line), "%s %d %d %s %ld\n", name, thread, step, what, now.tv_nsec);
	if (write(file, line, strlen(line)) < 0)
		_exit(1);
}

/* Holds the mutex in calls at which another thread may go on. */
static void use_mutex(int thread, int step)
{
	if (pthread_mutex_trylock(&mutex)) {
		pthread_mutex_lock(&mutex);
		taken++;
	}
	note(thread, step, "mutex");
	sched_yield();
	pthread_mutex_unlock(&mutex);
}

/* All threads meet here. */
static void use_cond(int thread, int step)
{
	static int present;
	int round;

	pthread_mutex_lock(&mutex);
	round = rounds;
	if (++present == THREADS) {
		present = 0;
		rounds++;
		pthread_cond_broadcast(&cond);
	}
	while (round == rounds)
		pthread_cond_wait(&cond, &mutex);
	note(thread, step, "cond");
	pthread_mutex_unlock(&mutex);
}

static void use_timed(int thread, int step)
{
	struct timespec time;

	clock_gettime(CLOCK_REALTIME, &time);
	time.tv_nsec += 1000000;
	time.tv_sec += time.tv_nsec / 1000000000;
	time.tv_nsec %= 1000000000;
	pthread_mutex_lock(&mutex);
	note(thread, step, pthread_cond_timedwait(&cond, &mutex, &time) ? "late" : "woken");
	pthread_mutex_unlock(&mutex);
	pthread_cond_signal(&cond);
}

static void use_rwlock(int thread, int step)
{
	if (step % 16 == 6)
		pthread_rwlock_wrlock(&rwlock);
	else
		pthread_rwlock_rdlock(&rwlock);
	note(thread, step, "rwlock");
	sched_yield();
	pthread_rwlock_unlock(&rwlock);
}

static void use_semaphore(int thread, int step)
{
	sem_wait(&semaphore);
	note(thread, step, "semaphore");
	sched_yield();
	sem_post(&semaphore);
}

static void use_pipe(int thread, int step)
{
	char byte = 'x';

	if (write(ends[1], &byte, 1) != 1 || read(ends[0], &byte, 1) != 1)
		_exit(1);
	note(thread, step, "pipe");
}

static void make_step(int thread, int step)
{
	struct timespec span = { 0, 1000000 };

	switch (step % KINDS) {
	case 0:
		use_mutex(thread, step);
		break;
	case 1:
		nanosleep(&span, NULL);
		note(thread, step, "sleep");
		break;
	case 2:
		use_semaphore(thread, step);
		break;
	case 3:
		use_cond(thread, step);
		break;
	case 4:
		sched_yield();
		note(thread, step, "yield");
		break;
	case 5:
		use_pipe(thread, step);
		break;
	case 6:
		use_rwlock(thread, step);
		break;
	default:
		use_timed(thread, step);
	}
}

static void *run(void *argument)
{
	for (int step = 0; step < STEPS; step++)
		make_step((int)(long)argument, step);
	return NULL;
}

static void run_threads(void)
{
	pthread_t threads[THREADS];

	sem_init(&semaphore, 0, 1);
	for (long i = 0; i < THREADS; i++)
		pthread_create(&threads[i], NULL, run, (void *)i);
	for (int i = 0; i < THREADS; i++)
		pthread_join(threads[i], NULL);
}

int main(int count, char **words)
{
	char child[32];
	pid_t process;

	if (count != 3 || pipe(ends))
		return 2;
	name = words[1];
	file = open(words[2], O_WRONLY | O_APPEND | O_CREAT, 0600);
	process = fork();
	if (!process) {
		snprintf(child, sizeof(child), "%s.child", name);
		name = child;
	}
	run_threads();
	if (process)
		waitpid(process, NULL, 0);
	printf("%s %d\n", name, taken);
	return 0;
}
