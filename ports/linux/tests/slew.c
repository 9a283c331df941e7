// SPDX-License-Identifier: GPL-2.0
/*
 * Does MONOTONIC go back between threads while the rate changes? Four threads read it, two by the
 * vDSO and two by the system call, and compare each time with the greatest that any has seen.
 *
 *     slew SECONDS PPM MICROSECONDS [offset|tick]
 *
 * It changes the frequency from PPM to -PPM and back at each of the pauses. With `offset` it asks
 * for an offset of 100 ms in turn of either sign, which changes the rate when the next second
 * starts. With `tick` it asks for a tick of 11,000 and of 9,000 us in turn, whatever PPM is, which
 * changes the rate by 20 percent. It ends with status 1 if a time went back.
 */
#define _GNU_SOURCE
#include <pthread.h>
#include <sched.h>
#include <stdatomic.h>
#include <stdio.h>
#include <stdlib.h>
#include <string.h>
#include <sys/syscall.h>
#include <sys/timex.h>
#include <time.h>
#include <unistd.h>

#define THREADS 4

static _Atomic long long greatest, worst;
static _Atomic long reads, backs;
static _Atomic int has_ended;
static long processors;

static void raise_to(_Atomic long long *most, long long value)
{
	long long seen = *most;

	while (value > seen && !atomic_compare_exchange_weak(most, &seen, value))
		;
}

static void *read_clock(void *number)
{
	long thread = (long)number, count = 0;
	cpu_set_t processor;

	CPU_ZERO(&processor);
	CPU_SET(thread % processors, &processor);
	sched_setaffinity(0, sizeof(processor), &processor);
	for (; !has_ended; count++) {
		long long seen = greatest, now;
		struct timespec time;

		if (thread & 2)
			syscall(SYS_clock_gettime, CLOCK_MONOTONIC, &time);
		else
			clock_gettime(CLOCK_MONOTONIC, &time);
		now = time.tv_sec * 1000000000LL + time.tv_nsec;
		if (now < seen) {
			backs++;
			raise_to(&worst, seen - now);
		}
		raise_to(&greatest, now);
	}
	reads += count;
	return NULL;
}

static void change_rate(long ppm, const char *how)
{
	struct timex request = { .modes = ADJ_FREQUENCY, .freq = ppm << 16 };

	if (!strcmp(how, "tick")) {
		request.modes = ADJ_TICK;
		request.tick = ppm < 0 ? 9000 : 11000;
	} else if (!strcmp(how, "offset")) {
		request.modes = ADJ_OFFSET | ADJ_STATUS | ADJ_TIMECONST | ADJ_NANO;
		request.status = STA_PLL | STA_FREQHOLD;
		request.offset = ppm < 0 ? -100000000 : 100000000;
	}
	adjtimex(&request);
}

int main(int count, char **words)
{
	pthread_t threads[THREADS];
	struct timex rest = { .modes = ADJ_FREQUENCY | ADJ_OFFSET | ADJ_STATUS | ADJ_TICK,
			      .status = STA_UNSYNC, .tick = 10000 };
	long changes = 0, ppm;
	time_t end;

	if (count < 4)
		return 2;
	ppm = atol(words[2]);
	processors = sysconf(_SC_NPROCESSORS_ONLN);
	for (long i = 0; i < THREADS; i++)
		pthread_create(&threads[i], NULL, read_clock, (void *)i);
	for (end = time(NULL) + atol(words[1]); time(NULL) < end; changes++) {
		change_rate(ppm, count > 4 ? words[4] : "");
		ppm = -ppm;
		usleep(atol(words[3]));
	}
	has_ended = 1;
	for (int i = 0; i < THREADS; i++)
		pthread_join(threads[i], NULL);
	adjtimex(&rest);
	printf("slew: %ld changes, %ld reads, %ld went back, by at most %lld ns\n", changes,
	       (long)reads, (long)backs, (long long)worst);
	return backs != 0;
}
