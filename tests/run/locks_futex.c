/* SPDX-License-Identifier: MIT OR Apache-2.0 */
/* Waits for futexes for a span, by syscall(2), and prints what spans.c prints. */
#define _GNU_SOURCE
#include "holder.h"

#ifndef FUTEX_LOCK_PI2
#define FUTEX_LOCK_PI2 13
#endif
#ifndef SYS_futex_waitv
#define SYS_futex_waitv 449
#endif

static int wait_futex(int operation, const struct timespec *time)
{
	return error_of((int)syscall(SYS_futex, &word, operation, 0, time, NULL,
				     FUTEX_BITSET_MATCH_ANY),
			ETIMEDOUT);
}

static int by_futex(int64_t span, int64_t *left)
{
	struct timespec time = span_of(span);

	(void)left;
	return wait_futex(FUTEX_WAIT_PRIVATE, &time);
}

static int by_futex_bitset(int64_t span, int64_t *left)
{
	struct timespec time = after(CLOCK_REALTIME, span);

	(void)left;
	return wait_futex(FUTEX_WAIT_BITSET | FUTEX_CLOCK_REALTIME, &time);
}

/* The kernel restarts this call after a signal. */
static int by_futex_lock_pi(int64_t span, int64_t *left)
{
	struct timespec time;

	(void)left;
	start_holder();
	time = after(CLOCK_REALTIME, span);
	return wait_futex(FUTEX_LOCK_PI, &time);
}

static int by_futex_lock_pi2(int64_t span, int64_t *left)
{
	struct timespec time;

	(void)left;
	start_holder();
	time = after(CLOCK_MONOTONIC, span);
	return wait_futex(FUTEX_LOCK_PI2, &time);
}

static int by_futex_waitv(int64_t span, int64_t *left)
{
	struct timespec time = after(CLOCK_MONOTONIC, span);
	struct {
		uint64_t value, address;
		uint32_t flags, reserved;
	} one = { 0, (uintptr_t)&word, 2 /* 32 bits */, 0 };

	(void)left;
	return error_of((int)syscall(SYS_futex_waitv, &one, 1, 0, &time,
				     CLOCK_MONOTONIC),
			ETIMEDOUT);
}

static const struct span_wait WAITS[] = {
	{ "futex", by_futex },
	{ "futex_bitset", by_futex_bitset },
	{ "futex_lock_pi", by_futex_lock_pi },
	{ "futex_lock_pi2", by_futex_lock_pi2 },
	{ "futex_waitv", by_futex_waitv },
};

int main(int count, char **words)
{
	return make_spans(WAITS, sizeof(WAITS) / sizeof(*WAITS), count, words);
}
