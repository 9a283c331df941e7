// SPDX-License-Identifier: GPL-2.0
/*
 * How far does MONOTONIC go from its rate after a step of the frequency? As the kernel's own test
 * freq-step does, it asks for a step for a second, takes it back, and compares MONOTONIC with
 * MONOTONIC_RAW, which no request changes. Then their difference grows by the frequency from before.
 *
 *     deviation SECONDS
 *
 * It prints a line each half second: the step in ppm, the seconds since it was taken back, and the
 * ns that the difference has grown more than by this frequency.
 */
#include <stdio.h>
#include <stdlib.h>
#include <sys/timex.h>
#include <time.h>
#include <unistd.h>

#define READS 10
#define PAUSE_US 500000
#define FREQUENCY 805000	/* 12.28 ppm, in 2^-16 ppm */

static const long steps[] = { 40960, 640, 10 };

static long long read_clock(clockid_t clock)
{
	struct timespec time;

	clock_gettime(clock, &time);
	return time.tv_sec * 1000000000LL + time.tv_nsec;
}

/* MONOTONIC minus MONOTONIC_RAW in ns, by the shortest of some reads, and the time of the read. */
static long long difference(long long *time)
{
	long long shortest = 0, found = 0;

	for (int i = 0; i < READS; i++) {
		long long before = read_clock(CLOCK_MONOTONIC_RAW);
		long long now = read_clock(CLOCK_MONOTONIC);
		long long took = read_clock(CLOCK_MONOTONIC_RAW) - before;

		if (!i || took < shortest) {
			shortest = took;
			found = now - before - took / 2;
			*time = before;
		}
	}
	return found;
}

/* Asks for FREQUENCY and a step. */
static void set_frequency(long ppm)
{
	struct timex request = { .modes = ADJ_TICK | ADJ_FREQUENCY, .tick = 10000 + ppm / 100,
				 .freq = FREQUENCY + (ppm % 100 << 16) };

	adjtimex(&request);
}

int main(int count, char **words)
{
	long samples = count == 2 ? atol(words[1]) * 1000000 / PAUSE_US : 0;

	for (size_t i = 0; i < sizeof(steps) / sizeof(*steps); i++) {
		struct timex clear = { .modes = ADJ_SETOFFSET };
		long long start, first, time;

		set_frequency(0);
		usleep(PAUSE_US);
		adjtimex(&clear);
		set_frequency(steps[i]);
		for (int pause = 0; pause < 10; pause++)	/* (about a second, in all) */
			usleep(rand() % 200000);
		set_frequency(0);
		first = difference(&start);
		for (long sample = 0; sample <= samples; sample++) {
			double moved = difference(&time) - first;

			printf("DEVIATION %ld %.3f %.0f\n", steps[i], (time - start) / 1e9,
			       moved - (time - start) * (FREQUENCY / 65536e6));
			usleep(PAUSE_US);
		}
	}
	return samples == 0;
}
