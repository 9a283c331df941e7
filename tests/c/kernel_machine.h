/* SPDX-License-Identifier: GPL-2.0 */
/*
 * The names of the kernel that examples/kernel/clocks.c uses, for the machine of
 * kernel_moves.c: each call of them is a step.
 */
#ifndef KERNEL_MACHINE_H
#define KERNEL_MACHINE_H

#include <setjmp.h>
#include <stdbool.h>
#include <stddef.h>
#include <stdint.h>
#include <stdio.h>
#include <stdlib.h>
#include <string.h>

#define LINUX_SEQLOCK_H /* instead of tests/c/linux */
#define LINUX_SPINLOCK_H

typedef uint32_t u32;
typedef uint64_t u64;
typedef int64_t s64;

#define ARRAY_SIZE(array) (sizeof(array) / sizeof((array)[0]))
#define READ_ONCE(value) (value)
#define WRITE_ONCE(value, next) (step(), (value) = (next))

/* The value that the writer has stored, and the one that others see. */
typedef struct {
	unsigned int stored, seen;
} seqcount_t;

typedef seqcount_t seqcount_raw_spinlock_t;
typedef seqcount_t seqcount_latch_t;

typedef struct {
	bool is_locked;
} raw_spinlock_t;

/* The steps of the call that runs, and the one before which another processor
 * does `other`. `is_other` is true while it does. */
static int steps, place;
static bool is_other;
static void (*other)(void);
static jmp_buf waiting; /* of the other processor */

/* Of a command: it is between the changes of the sequence; it has read the
 * counter; it has made the sequence even. */
static bool is_inside, has_read, has_ended;

static _Noreturn void fail(const char *what)
{
	fprintf(stderr, "kernel_moves: before step %d: %s\n", place, what);
	exit(EXIT_FAILURE);
}

static void step(void)
{
	if (is_other || steps++ != place)
		return;
	is_other = true;
	other();
	is_other = false;
}

static void smp_mb(void);

static void raw_spin_lock_init(raw_spinlock_t *lock)
{
	lock->is_locked = false;
}

static void lock_once(raw_spinlock_t *lock)
{
	if (lock->is_locked)
		fail("the lock is taken twice");
	lock->is_locked = true;
}

#define raw_spin_lock_irqsave(lock, flags) (lock_once(lock), (flags) = 0)
#define raw_spin_unlock_irqrestore(lock, flags) \
	((void)(flags), (lock)->is_locked = false)
#define seqcount_raw_spinlock_init(s, lock) \
	((s)->stored = (s)->seen = 0, (void)(lock))
#define seqcount_latch_init(s) ((s)->stored = (s)->seen = 0)

static unsigned int read_seqcount_begin(const seqcount_t *s)
{
	step();
	if (s->seen & 1) {
		if (!is_other)
			fail("a read waits for a command that has ended");
		longjmp(waiting, 1);
	}
	return s->seen;
}

static bool read_seqcount_retry(const seqcount_t *s, unsigned int start)
{
	step();
	return s->seen != start;
}

static void write_seqcount_begin(seqcount_t *s)
{
	step();
	s->stored++;
	is_inside = true;
	step();
}

/* The stores before it are seen, so the odd sequence is. */
static void write_seqcount_end(seqcount_t *s)
{
	s->seen = s->stored;
	step();
	s->seen = ++s->stored;
	has_ended = true;
	is_inside = false;
	step();
}

static void raw_write_seqcount_latch(seqcount_latch_t *s)
{
	step();
	s->seen = ++s->stored;
	step();
}

static unsigned int raw_read_seqcount_latch(const seqcount_latch_t *s)
{
	step();
	return s->seen;
}

static bool read_seqcount_latch_retry(const seqcount_latch_t *s,
				      unsigned int start)
{
	return read_seqcount_retry(s, start);
}

#endif
