/* SPDX-License-Identifier: MIT OR Apache-2.0 */
/*
 * image.c - the vDSO of the programs of a run: of those without the library, and of those that
 * read clocks past the library. It reads the clocks where they are mapped in front of it. For all
 * that it can't read it makes the system call, which the filter sends to tkrun. It runs before a
 * program has set up anything, also on the small stacks of Go. So it has no data and no
 * thread-local variables, and calls nothing but libtkcore.a and the kernel's own vDSO.
 */
#define _GNU_SOURCE
#include "image.h"

#include <errno.h>
#include <sys/syscall.h>

enum { TRIES_MOST = 100000 }; /* while a writer is inside */

#define OFFERED __attribute__((visibility("default")))

/* The image's first byte. The linker defines it. */
extern const char __ehdr_start[] __attribute__((visibility("hidden")));

/* Returns an address in front of the image, where the compiler knows of nothing. */
static const void *in_front(size_t bytes)
{
	const char *start = __ehdr_start;

	__asm__("" : "+r"(start));
	return start - bytes;
}

/* What a read needs. */
struct look {
	struct tkc_line line;
	uint64_t reading;
	uint64_t next; /* the reading at which the next second begins */
	bool has_next;
};

/* For a host whose vDSO would make another call, which the filter doesn't know. */
static int gettime_by_call(clockid_t clock, struct timespec *out)
{
	return (int)host_call(SYS_clock_gettime, clock, (long)out, 0, 0, 0,
			      HOST_CALL);
}

/* Makes a call that tkrun answers. A signal may come before tkrun has heard of it, but interrupts
 * no such call of Linux. */
static long ask(long number, long a, long b)
{
	long result;

	do {
		result = host_call(number, a, b, 0, 0, 0, 0);
	} while (result == -EINTR);
	return result;
}

/* Does a reader's steps once, for the line of a clock. Returns false if a writer was inside. The
 * loads between the reading and the second load of the sequence run while the counter is read. */
static inline __attribute__((always_inline)) bool
try_look(const struct shared_page *shared, uint32_t clock, struct look *look)
{
	const struct tkc_page *page = &shared->page;
	uint64_t sequence = atomic_load_explicit(&page->sequence,
						 memory_order_acquire);
	const struct next_second *next = &shared->seconds[sequence / 2 % 2];
	const union image_head *head = in_front(HEAD_BYTES);

	if (sequence % 2) {
		__builtin_ia32_pause();
		return false;
	}
	look->reading = early_reading(
		shared, head->gettime ? head->gettime : gettime_by_call);
	look->line = line_load(shared->lines[sequence / 2 % 2].of[clock]);
	look->next = atomic_load_explicit(&next->reading, memory_order_relaxed);
	look->has_next =
		atomic_load_explicit(&next->is_known, memory_order_relaxed);
	return !tkc_page_moved(after(&page->sequence, look->reading), sequence);
}

/* Does the same until no writer is inside. Returns false if a writer doesn't end. */
__attribute__((noinline, cold)) static bool
look_again(const struct shared_page *shared, uint32_t clock, struct look *look)
{
	for (int tries = 0; tries < TRIES_MOST; tries++)
		if (try_look(shared, clock, look))
			return true;
	return false;
}

/* Reads a clock by its line. Returns false if tkrun has to: a writer doesn't
 * end, or the next second has to begin first, or the line doesn't reach. */
static inline __attribute__((always_inline)) bool
read_clock(uint32_t clock, struct tkc_time *out)
{
	const struct shared_page *shared = in_front(HEAD_BYTES + SHARED_BYTES);
	const union image_head *head = in_front(HEAD_BYTES);
	struct look look;

	if (head->makes_calls)
		return false;
	if (!try_look(shared, clock, &look)) {
		struct look again; /* so that the other stays in registers */

		if (!look_again(shared, clock, &again))
			return false;
		look = again;
	}
	if (look.has_next && is_past(shared, look.reading, look.next))
		return false;
	return tkc_line_get(out, &look.line, look.reading);
}

/* Returns whether the clocks of tkrun have a clock by its own number. */
static bool has_clock(clockid_t clock)
{
	const unsigned int clocks =
		1U << CLOCK_REALTIME | 1U << CLOCK_MONOTONIC |
		1U << CLOCK_MONOTONIC_RAW | 1U << CLOCK_REALTIME_COARSE |
		1U << CLOCK_MONOTONIC_COARSE | 1U << CLOCK_BOOTTIME |
		1U << CLOCK_TAI;

	return clock >= 0 && clock <= CLOCK_TAI && clocks >> clock & 1;
}

OFFERED int __vdso_clock_gettime(clockid_t clock, struct timespec *out)
{
	struct tkc_time now;

	if (!has_clock(clock) || !read_clock((uint32_t)clock, &now))
		return (int)ask(SYS_clock_gettime, clock, (long)out);
	*out = (struct timespec){ now.sec, now.nsec };
	return 0;
}

OFFERED int __vdso_clock_getres(clockid_t clock, struct timespec *out)
{
	const struct shared_page *shared = in_front(HEAD_BYTES + SHARED_BYTES);

	if (!has_clock(clock))
		return (int)host_call(SYS_clock_getres, clock, (long)out, 0, 0,
				      0, 0);
	if (out)
		*out = machine_resolution(shared, clock);
	return 0;
}

OFFERED int __vdso_gettimeofday(struct timeval *out, struct timezone *zone)
{
	struct tkc_time now;

	if (!out || zone || !read_clock(TKC_CLOCK_REALTIME, &now))
		return (int)ask(SYS_gettimeofday, (long)out, (long)zone);
	*out = (struct timeval){ now.sec, now.nsec / 1000 };
	return 0;
}

OFFERED time_t __vdso_time(time_t *out)
{
	struct tkc_time now;

	if (!read_clock(TKC_CLOCK_REALTIME_COARSE, &now))
		return ask(SYS_time, (long)out, 0);
	if (out)
		*out = now.sec;
	return now.sec;
}

/*
 * What has nothing to do with clocks: a jump to the kernel's own function, whose address is so far
 * in front of the image, with all registers as they are. Where the kernel has none, the head has
 * the address of image_none.
 */
#define FORWARD(name, back)                                             \
	__asm__(".pushsection .text.forward, \"ax\"\n"                   \
		".globl __vdso_" #name "\n"                              \
		".type __vdso_" #name ", @function\n"                    \
		"__vdso_" #name ": jmp *__ehdr_start - " #back "(%rip)\n" \
		".size __vdso_" #name ", . - __vdso_" #name "\n"         \
		".popsection");                                         \
	_Static_assert(HEAD_BYTES - offsetof(union image_head, name) == back,   \
		       "the head's layout")

FORWARD(getcpu, 4080);
FORWARD(getrandom, 4072);
FORWARD(sgx_enter_enclave, 4064);

/* The image's entry, by which tkrun finds it. */
long image_none(void)
{
	return -ENOSYS;
}
