/* SPDX-License-Identifier: MIT OR Apache-2.0 */
/*
 * Each struct that a call fills is written in all its bytes: its bytes are the
 * same whatever was in the memory and on the stack before the call. Under
 * valgrind's memcheck no byte may come from memory that nobody wrote.
 */
#include "filled.h"

#include <stdio.h>
#if defined(__has_include)
#if __has_include(<valgrind/memcheck.h>)
#include <valgrind/memcheck.h>
#endif
#endif
#ifndef VALGRIND_MAKE_MEM_UNDEFINED
#define VALGRIND_MAKE_MEM_UNDEFINED(address, size) ((void)(address), (void)(size))
#define VALGRIND_CHECK_MEM_IS_DEFINED(address, size) ((void)(address), (void)(size), 0)
#endif

enum { STACK = 4096, MOST = 512 };

/* What memory and the stack contain before a call. */
static int stale;

__attribute__((noinline)) void leave_stale_stack(void)
{
	volatile unsigned char stack[STACK];

	for (size_t i = 0; i < sizeof(stack); i++)
		stack[i] = (unsigned char)stale;
	VALGRIND_MAKE_MEM_UNDEFINED((const void *)stack, sizeof(stack));
}

/* Fills a struct over these stale bytes. Returns whether each byte was written. */
static bool is_written(const struct filled *it, int bytes, void *out)
{
	stale = bytes;
	memset(out, bytes, MOST);
	VALGRIND_MAKE_MEM_UNDEFINED(out, it->size);
	it->fill(out);
	return !VALGRIND_CHECK_MEM_IS_DEFINED(out, it->size);
}

/* Fills a struct over two kinds of stale bytes. Returns whether it has the same bytes
 * both times, and the bytes after it stay. */
static bool is_filled(const struct filled *it)
{
	static uint64_t one[MOST / 8], other[MOST / 8];
	const unsigned char *bytes = (void *)one, *others = (void *)other;
	bool is_well = is_written(it, 0x00, one);

	is_well = is_written(it, 0xff, other) && is_well;
	for (size_t at = 0; at < MOST; at++) {
		if (at < it->size ? bytes[at] == others[at] : !bytes[at] && others[at] == 0xff)
			continue;
		fprintf(stderr, "filled: %s: byte %zu was there before\n", it->name, at);
		is_well = false;
	}
	return is_well;
}

int main(void)
{
	static const struct filled *const lists[] = { filled_clocks, filled_pages, filled_ntp };
	int count = 0, faults = 0;

	for (size_t i = 0; i < COUNT_OF(lists); i++) {
		for (const struct filled *it = lists[i]; it->name; it++, count++) {
			if (is_filled(it))
				continue;
			fprintf(stderr, "filled: %s leaves bytes unwritten\n", it->name);
			faults++;
		}
	}
	if (!faults)
		printf("filled: %d structs are written in all their bytes\n", count);
	return faults != 0;
}
