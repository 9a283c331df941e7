/* SPDX-License-Identifier: MIT OR Apache-2.0 */
/* Compares tkc_snapshot_convert with tkc_snapshot_get: lists of each length up to
 * LONGEST, at each distance from a cache line, of random snapshots of all clocks,
 * some with a stamp that is refused. On x86-64 it tests too that no call leaves the
 * upper halves of the AVX registers in use, which slows SSE code down.
 *
 *     lists_by_get CALLS [FILE]
 *
 * With FILE, the calls are those of this shared object, opened by dlopen. It prints
 * the file that the calls are in. */
#define _GNU_SOURCE
#include "check.h"
#include "random.h"

#include <dlfcn.h>
#include <stdio.h>
#include <stdlib.h>
#include <string.h>

enum { LONGEST = 100, LINE = 8, ROOM = LONGEST + 2 * LINE };

static const double LIMIT = 946080000e9; /* of MONOTONIC, in ns */
static const uint64_t UNWRITTEN = 0xfeedfacecafebeef;
static const uint32_t clocks[] = { 0, 1, 4, 5, 6, 7, 11 };

static __typeof__(&tkc_snapshot_convert) convert = tkc_snapshot_convert;

#ifdef __x86_64__
#include <cpuid.h>

/* Returns which parts of the registers are in use, as XGETBV does with 1. */
static uint32_t in_use(void)
{
	uint32_t low, high;

	__asm__ volatile(".byte 0x0f, 0x01, 0xd0" : "=a"(low), "=d"(high) : "c"(1));
	return low;
}

static bool tells_use(void)
{
	uint32_t a, b, c, d;

	return __get_cpuid(1, &a, &b, &c, &d) && c & bit_OSXSAVE &&
	       __get_cpuid_count(0xd, 1, &a, &b, &c, &d) && a & 4;
}
#else
static uint32_t in_use(void)
{
	return 0;
}

static bool tells_use(void)
{
	return false;
}
#endif

/* Snapshots of one counter. `near` is the greatest distance of most stamps, and `end` is about
 * that at which the clocks reach their limit, in cycles; `second` is a second of a clock. */
struct origin {
	struct tkc_snapshot snapshot;
	uint64_t start, mask, near, end, second;
};

static void describe(struct tkc_counter *counter, struct origin *origin)
{
	uint32_t bits, mult, shift;
	double cycle;

	do {
		bits = one_in(2) ? 64 : 8 + (uint32_t)below(57);
		mult = (uint32_t)some();
		shift = (uint32_t)below(33);
		if (one_in(8)) {
			/* the clocks reach their limit not long before half the range */
			bits = 64;
			mult = 0x20000000 + (uint32_t)below(0x10000000);
			shift = 32;
		}
	} while (tkc_counter_new(counter, bits, mult, shift));
	cycle = (double)mult / (double)((uint64_t)1 << shift);
	origin->mask = UINT64_MAX >> (64 - bits);
	origin->near = origin->mask / 4 + 1;
	if (origin->near > 0x1000000000)
		origin->near = 0x1000000000;
	origin->end = LIMIT / cycle < 9e18 ? (uint64_t)(LIMIT / cycle) : 0;
	origin->second = (uint64_t)(1e9 / cycle) + 1;
}

static void open_origin(struct origin *origin)
{
	struct tkc_counter counter;
	struct tkc_clock clock;

	describe(&counter, origin);
	origin->start = some() & origin->mask;
	check(!tkc_clock_open(&clock, &counter, origin->start, 1, (uint32_t)below(1000000000)));
	for (int i = 0; i < 3; i++) {
		uint64_t reading = (origin->start + below(1000)) & origin->mask;

		if (!tkc_clock_apply(&clock, reading, TKC_CMD_FREQ, (int64_t)below(4000) - 2000, 0))
			origin->start = reading;
	}
	tkc_clock_snapshot(&origin->snapshot, &clock);
}

/* Most stamps are ahead of the last command, so that they are converted several at a time. */
static uint64_t random_stamp(const struct origin *origin, bool is_far)
{
	uint64_t cycles = below(origin->near);

	if (is_far)
		cycles = origin->end - below(20) * origin->second + below(10 * origin->second);
	else if (one_in(40))
		cycles = 0 - below(100);
	else if (one_in(200))
		cycles = some();
	return (origin->start + cycles) & origin->mask;
}

static void compare_list(const struct tkc_snapshot *snapshot, uint32_t clock, uint64_t *out,
			 const uint64_t *stamps, size_t count)
{
	static bool is_told, is_first = true;
	enum tkc_code expected = TKC_OK;
	size_t done = ROOM, i;
	uint32_t before;

	if (is_first)
		is_told = tells_use();
	is_first = false;
	before = is_told ? in_use() & 4 : 0;
	enum tkc_code code = convert(out, count, &done, snapshot, clock, stamps, count);
	if (is_told && !before)
		check(!(in_use() & 4));
	for (i = 0; i < count && !expected; i++) {
		struct tkc_time time;

		expected = tkc_snapshot_get(&time, snapshot, clock, stamps[i]);
		if (!expected)
			check(out[i] == (uint64_t)time.sec * 1000000000 + time.nsec);
	}
	check(code == expected);
	check(done == (expected ? i - 1 : count));
	for (i = done; i < count + LINE; i++)
		check(out[i] == UNWRITTEN);
	for (i = 1; i <= LINE; i++)
		check(out[-i] == UNWRITTEN);
}

static void compare_lists(size_t count)
{
	static _Alignas(64) uint64_t in[ROOM], out[ROOM + 2 * LINE];
	uint32_t clock = clocks[below(COUNT_OF(clocks))];
	size_t from = below(LINE), to = LINE + below(LINE);
	struct origin origin;
	bool is_far;

	open_origin(&origin);
	is_far = origin.end && one_in(3);
	for (size_t i = 0; i < count; i++)
		in[from + i] = random_stamp(&origin, is_far);
	if (count && one_in(4))
		in[from + below(count)] = some();
	for (size_t i = 0; i < COUNT_OF(out); i++)
		out[i] = UNWRITTEN;
	compare_list(&origin.snapshot, clock, out + to, in + from, count);
}

int main(int argc, char **argv)
{
	Dl_info place;
	void *library = argc > 2 ? dlopen(argv[2], RTLD_NOW) : NULL;

	if (argc > 2) {
		check(library);
		*(void **)&convert = dlsym(library, "tkc_snapshot_convert");
	}
	check(argc > 1 && convert);
	for (case_number = 0; case_number < strtoull(argv[1], NULL, 10); case_number++)
		compare_lists(case_number % (LONGEST + 1));
	check(dladdr(*(void **)&convert, &place));
	puts(place.dli_fname);
	return EXIT_SUCCESS;
}
