/* SPDX-License-Identifier: MIT OR Apache-2.0 */
#define _DEFAULT_SOURCE

#include "rooms.h"

#include "random.h"

#include <stdio.h>
#include <stdlib.h>
#include <string.h>
#include <sys/mman.h>
#include <unistd.h>

struct rooms rooms;

static size_t page_size;

static struct room make_room(void)
{
	unsigned char *pages = mmap(NULL, 3 * page_size, PROT_NONE,
				    MAP_PRIVATE | MAP_ANONYMOUS, -1, 0);

	if (pages == MAP_FAILED ||
	    mprotect(pages + page_size, page_size, PROT_READ | PROT_WRITE)) {
		perror("any_bytes: memory");
		exit(EXIT_FAILURE);
	}
	return (struct room){ pages + page_size };
}

void make_rooms(void)
{
	struct room *all[] = {
		&rooms.counter, &rooms.clock, &rooms.snapshot, &rooms.other,
		&rooms.ntp, &rooms.words, &rooms.time, &rooms.frequency,
		&rooms.tick, &rooms.stamps, &rooms.out, &rooms.done,
	};

	page_size = (size_t)sysconf(_SC_PAGESIZE);
	for (size_t i = 0; i < sizeof(all) / sizeof(*all); i++)
		*all[i] = make_room();
}

void *place(struct room room, size_t size)
{
	return one_in(2) ? room.page : room.page + page_size - size;
}

void *fill(struct room room, void *copy, size_t size)
{
	unsigned char *at = place(room, size);

	for (size_t i = 0; i < size; i++)
		at[i] = (unsigned char)any();
	memcpy(copy, at, size);
	return at;
}

void *put(struct room room, const void *value, size_t size)
{
	return memcpy(place(room, size), value, size);
}
