/* SPDX-License-Identifier: MIT OR Apache-2.0 */
/*
 * Reads by a copy of the image, whose clocks this program writes: the page and the head in front of
 * the image are its own, and so is the function that reads the host's clock. This function also
 * publishes clocks while a read goes on. Each clock has its own second, and each publication its
 * own thousand. If the image can't read, tkrun answers, with a second after START. Prints what is
 * wrong.
 */
#define _GNU_SOURCE
#include "gettimes.h"
#include "vdso_functions.h"

#include "image/image.h"

#include <stdlib.h>
#include <sys/auxv.h>
#include <sys/mman.h>

enum {
	SPAN = 5000000,	 /* the cycles of 1 ns for which a line reaches */
	READING = 1234567, /* of the counter, at the end of each read of it */
	FRACTION = 800000,
	THOUSAND = 1000,
};

static const clockid_t CLOCKS[] = {
	CLOCK_REALTIME,	       CLOCK_MONOTONIC,	       CLOCK_MONOTONIC_RAW, CLOCK_REALTIME_COARSE,
	CLOCK_MONOTONIC_COARSE, CLOCK_BOOTTIME,	       CLOCK_TAI,
};

static struct shared_page *shared; /* in front of the copy */
static union image_head *head;
static gettime *read_clock;
static int published; /* how often */
static int readings;  /* of the counter, by the last read */
static int to_publish[8]; /* at each of them; -1: a writer begins, and doesn't end */

/* Writes the copy that isn't read, and then lets readers have it. */
static void publish(uint64_t next, bool is_known)
{
	uint64_t sequence = atomic_load(&shared->page.sequence) | 1, copy = (sequence + 1) / 2 % 2;
	struct tkc_line line = { .mask = UINT64_MAX, .span = SPAN, .frac = FRACTION << 4,
				 .mult = 1 << 4, .shift = 4 };

	published++;
	for (size_t i = 0; i < LINES; i++) {
		line.sec = (uint64_t)published * THOUSAND + i;
		line_store(shared->lines[copy].of[i], &line);
	}
	atomic_store(&shared->seconds[copy].reading, next);
	atomic_store(&shared->seconds[copy].is_known, is_known);
	atomic_store(&shared->page.sequence, sequence + 1);
}

/* Acts as the host's clock_gettime. */
static int read_host(clockid_t clock, struct timespec *out)
{
	int count = to_publish[readings++];

	CHECK(clock == CLOCK_MONOTONIC_RAW);
	for (int i = 0; i < count; i++)
		publish(0, false);
	if (count < 0)
		atomic_fetch_or(&shared->page.sequence, 1);
	*out = (struct timespec){ 0, READING };
	return 0;
}

/* Makes a copy of the image with a page and a head in front of it. Returns the copy. */
static char *copy_image(const char *image)
{
	const Elf64_Ehdr *start = (const Elf64_Ehdr *)image;
	size_t size = ((const Elf64_Phdr *)(image + start->e_phoff))->p_memsz;
	char *memory = mmap(NULL, SHARED_BYTES + HEAD_BYTES + size,
			    PROT_READ | PROT_WRITE | PROT_EXEC, MAP_PRIVATE | MAP_ANONYMOUS, -1, 0);

	if (memory == MAP_FAILED)
		return NULL;
	shared = (struct shared_page *)memory;
	head = (union image_head *)(memory + SHARED_BYTES);
	*head = *(const union image_head *)(image - HEAD_BYTES);
	return memcpy(memory + SHARED_BYTES + HEAD_BYTES, image, size);
}

/* Begins anew, with one publication. */
static void begin(void)
{
	memset(shared, 0, SHARED_BYTES);
	memset(to_publish, 0, sizeof(to_publish));
	shared->kind = COUNTER_RAW;
	shared->scale = 1;
	shared->mask = UINT64_MAX;
	shared->update_nanos = 7000000;
	head->gettime = read_host;
	head->makes_calls = 0;
	published = 0;
	publish(0, false);
}

/* Checks that a clock has the time of the last publication, after `count` readings. */
static void check_line(clockid_t clock, int count)
{
	struct timespec now = { -1, -1 };

	readings = 0;
	CHECK(!read_clock(clock, &now) && now.tv_nsec == FRACTION + READING);
	CHECK(now.tv_sec == published * THOUSAND + clock);
	CHECK(readings == count);
}

/* Checks that tkrun answers, after `count` readings. */
static void check_asked(clockid_t clock, int count)
{
	struct timespec now = { -1, -1 };

	readings = 0;
	CHECK(!read_clock(clock, &now));
	CHECK(is_after(now.tv_sec, START) || is_after(now.tv_sec, 0));
	CHECK(readings == count);
}

static void test_clocks(void)
{
	begin();
	for (size_t i = 0; i < sizeof(CLOCKS) / sizeof(*CLOCKS); i++)
		check_line(CLOCKS[i], 1);
	publish(0, false);
	for (size_t i = 0; i < sizeof(CLOCKS) / sizeof(*CLOCKS); i++)
		check_line(CLOCKS[i], 1);
}

/* What is published while the counter is read is read by the next try: one publication is in the
 * other copy, and two are in the same. */
static void test_publications(void)
{
	for (int tries = 1; tries < 6; tries++) {
		for (int count = 1; count < 5; count++) {
			begin();
			for (int i = 1; i < tries; i++)
				to_publish[i - 1] = count;
			check_line(CLOCK_REALTIME, tries);
			CHECK(published == 1 + (tries - 1) * count);
		}
	}
}

/* If a writer doesn't end, tkrun answers. */
static void test_writers(void)
{
	begin();
	to_publish[0] = -1;
	check_asked(CLOCK_REALTIME, 1);
	check_asked(CLOCK_MONOTONIC, 0);
	publish(0, false);
	to_publish[0] = 0;
	check_line(CLOCK_REALTIME, 1);
}

/* In the next second tkrun answers, which lets it begin. */
static void test_seconds(void)
{
	begin();
	publish(READING + 1, true);
	check_line(CLOCK_REALTIME, 1);
	publish(READING, true);
	check_asked(CLOCK_REALTIME, 1);
	publish(READING, false);
	check_line(CLOCK_REALTIME, 1);
	publish(READING - 1, true);
	check_asked(CLOCK_MONOTONIC, 1);
	begin();
	to_publish[0] = 1; /* only the copy that is left has a next second */
	atomic_store(&shared->seconds[1].is_known, true);
	check_line(CLOCK_REALTIME, 2);
}

/* A line of `span` cycles has no value at its end. */
static void test_spans(void)
{
	begin();
	for (int copy = 0; copy < 2; copy++)
		atomic_store(&shared->lines[copy].of[CLOCK_BOOTTIME][2], READING);
	check_asked(CLOCK_BOOTTIME, 1);
	check_line(CLOCK_REALTIME, 1);
	for (int copy = 0; copy < 2; copy++)
		atomic_store(&shared->lines[copy].of[CLOCK_BOOTTIME][2], READING + 1);
	check_line(CLOCK_BOOTTIME, 1);
}

static void test_calls(void)
{
	begin();
	head->makes_calls = 1;
	check_asked(CLOCK_REALTIME, 0);
}

/* A counter of 8 ns, of 24 bits, that was at 100 when the host was at 7. */
static void test_counter(void)
{
	struct timespec now;

	begin();
	shared->base = 7;
	shared->scale = (uint64_t)1 << 60;
	shared->scale_shift = 63;
	shared->mask = 0xffffff;
	shared->first = 0xffffff;
	for (int copy = 0; copy < 2; copy++)
		for (int i = 0; i < LINES; i++)
			atomic_store(&shared->lines[copy].of[i][1], shared->mask);
	readings = 0;
	CHECK(!read_clock(CLOCK_REALTIME, &now));
	CHECK(now.tv_nsec == FRACTION + (READING - 7) / 8 - 1 && readings == 1);
	shared->kind = COUNTER_SLEEPS;
	shared->cycles = 5;
	CHECK(!read_clock(CLOCK_REALTIME, &now));
	CHECK(now.tv_nsec == FRACTION + 4 && readings == 1);
}

static void test_functions(const char *copy)
{
	int (*read_micros)(struct timeval *, void *) =
		(int (*)(struct timeval *, void *))find_function(copy, "__vdso_gettimeofday");
	time_t (*read_second)(time_t *) = (time_t (*)(time_t *))find_function(copy, "__vdso_time");
	gettime *resolve = (gettime *)find_function(copy, "__vdso_clock_getres");
	struct timespec step;
	struct timeval micros;
	time_t second;

	begin();
	CHECK(!read_micros(&micros, NULL) && micros.tv_sec == THOUSAND + CLOCK_REALTIME);
	CHECK(micros.tv_usec == (FRACTION + READING) / 1000);
	CHECK(read_second(&second) == THOUSAND + CLOCK_REALTIME_COARSE);
	CHECK(second == THOUSAND + CLOCK_REALTIME_COARSE);
	CHECK(read_second(NULL) == THOUSAND + CLOCK_REALTIME_COARSE);
	CHECK(!resolve(CLOCK_BOOTTIME, &step) && !step.tv_sec && step.tv_nsec == 1);
	CHECK(!resolve(CLOCK_REALTIME_COARSE, &step) && step.tv_nsec == 7000000);
	CHECK(!resolve(CLOCK_MONOTONIC_COARSE, &step) && step.tv_nsec == 7000000);
	CHECK(!resolve(CLOCK_TAI, NULL));
}

int main(void)
{
	const char *image = (const char *)getauxval(AT_SYSINFO_EHDR), *copy;

	if (!image_head_of((uint64_t)image)) {
		puts("the vDSO is the kernel's");
		return EXIT_FAILURE;
	}
	copy = copy_image(image);
	if (!copy)
		return EXIT_FAILURE;
	read_clock = (gettime *)find_function(copy, "__vdso_clock_gettime");
	test_clocks();
	test_publications();
	test_writers();
	test_seconds();
	test_spans();
	test_calls();
	test_counter();
	test_functions(copy);
	return faults > 0;
}
