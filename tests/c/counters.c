/* SPDX-License-Identifier: MIT OR Apache-2.0 */
/*
 * Reads the processor's counter by the functions of tkcore_page.h: the TSC, which must be between two
 * readings of the compiler's, or on AArch64 CNTVCT_EL0. There, no reading may be below an earlier
 * one, and the readings at two moments must differ by CNTFRQ_EL0 cycles for each second of the
 * system's clock between them, at most one cycle off. tests/c/counter_order compares the
 * instructions of by_reader and by_writer.
 */
#define _POSIX_C_SOURCE 200809L

#include <inttypes.h>
#include <stdio.h>
#include <stdlib.h>
#include <time.h>
#include <tkcore_page.h>
#ifdef __x86_64__
#include <x86intrin.h>

#define read_to_read tkc_tsc_for_reader
#define read_to_write tkc_tsc_for_writer
#else
#define read_to_read tkc_cntvct_for_reader
#define read_to_write tkc_cntvct_for_writer
#endif

enum { READS = 200000, NSEC = 1000000000 };

uint64_t by_reader(void *context);
uint64_t by_writer(void *context);

uint64_t by_reader(void *context)
{
	return read_to_read(context);
}

uint64_t by_writer(void *context)
{
	return read_to_write(context);
}

#ifdef __x86_64__
/* Returns the TSC, which is read after all that precedes. */
static uint64_t tsc_now(void)
{
	_mm_lfence();
	return __rdtsc();
}

int main(void)
{
	for (int i = 0; i < READS; i++) {
		uint64_t before = tsc_now(), reading = i % 2 ? by_reader(NULL) : by_writer(NULL);

		if (reading >= before && reading <= tsc_now())
			continue;
		fprintf(stderr, "counters: read %d isn't between the readings next to it\n", i);
		return EXIT_FAILURE;
	}
	puts("counters: the TSC was always between two readings");
	return EXIT_SUCCESS;
}
#else
static uint64_t system_ns(void)
{
	struct timespec now;

	clock_gettime(CLOCK_MONOTONIC, &now);
	return (uint64_t)now.tv_sec * NSEC + (uint64_t)now.tv_nsec;
}

/* A reading, and the system's clock before and after it. */
struct moment {
	uint64_t before, reading, after;
};

static struct moment look(uint64_t (*read)(void *))
{
	struct moment found;

	found.before = system_ns();
	found.reading = read(NULL);
	found.after = system_ns();
	return found;
}

/* The cycles in some nanoseconds, rounded down. */
static uint64_t cycles_in(uint64_t ns, uint64_t hz)
{
	__extension__ typedef unsigned __int128 wide;

	return (uint64_t)((wide)ns * hz / NSEC);
}

/* The later moment is as many cycles after the earlier one as the system's clock says. */
static void check_rate(const struct moment *one, const struct moment *other, uint64_t hz)
{
	uint64_t cycles = other->reading - one->reading;
	uint64_t least = cycles_in(other->before - one->after, hz);
	uint64_t most = cycles_in(other->after - one->before, hz);

	if (cycles + 1 >= least && cycles <= most + 1)
		return;
	fprintf(stderr, "counters: %" PRIu64 " cycles instead of %" PRIu64 " to %" PRIu64 "\n", cycles,
		least, most);
	exit(EXIT_FAILURE);
}

int main(void)
{
	uint64_t hz, last = 0;
	struct moment one, other;

	__asm__("mrs %0, cntfrq_el0" : "=r"(hz));
	one = look(by_writer);
	for (int i = 0; i < READS; i++) {
		uint64_t reading = i % 2 ? by_reader(NULL) : by_writer(NULL);

		if (reading < last) {
			fprintf(stderr, "counters: read %d is below the one before\n", i);
			return EXIT_FAILURE;
		}
		last = reading;
	}
	while (system_ns() - one.after < NSEC / 5)
		;
	other = look(by_reader);
	check_rate(&one, &other, hz);
	printf("counters: the counter of %" PRIu64 " Hz never went back\n", hz);
	return EXIT_SUCCESS;
}
#endif
