/* SPDX-License-Identifier: MIT OR Apache-2.0 */
/*
 * file_limits: with --file-times, looks at the list of moments in the clocks' memory. A counter
 * that runs needs few of them. On one of sleeps, fills the list, as a million moves would: then the
 * file from before keeps its time. Prints the line of each fault.
 */
#define _GNU_SOURCE
#include "file_status.h"

#include "clocks/shared.h"

#include <sys/mman.h>

enum { FEW = 20 };

static struct file_times *map_times(void)
{
	struct shared_page *shared;
	char path[4096];
	int file;

	snprintf(path, sizeof(path), "%s/page", getenv("TKRUN"));
	file = open(path, O_RDWR);
	shared = mmap(NULL, sizeof(*shared) + sizeof(struct file_times), PROT_READ | PROT_WRITE,
		      MAP_SHARED, file, 0);
	if (shared == MAP_FAILED)
		exit(EXIT_FAILURE);
	return shared->file_times;
}

/* Adds moments like the last one, 1 ns after each other, until there is no place for more. */
static void fill(struct file_times *times)
{
	uint32_t count = atomic_load(&times->count);
	int64_t host = atomic_load(&times->of[count - 1].host);

	for (; count < MOMENTS_MOST; count++) {
		atomic_store(&times->of[count].host, ++host);
		atomic_store(&times->of[count].real, times->of[count - 1].real);
	}
	atomic_store(&times->count, count);
}

int main(void)
{
	struct file_times *times = map_times();
	struct stat before;

	find_counter();
	pass(1);
	CHECK(atomic_load(&times->count) < FEW);
	if (!is_still) {
		sleep(1);
		CHECK(atomic_load(&times->count) < FEW);
		return faults;
	}
	put("old", "");
	before = of("old");
	pass(1);
	pass(1);
	fill(times);
	pass(1);
	CHECK(atomic_load(&times->count) == MOMENTS_MOST);
	check_same(&before, &(struct stat[]){ of("old") }[0]);
	return faults;
}
