/* SPDX-License-Identifier: GPL-2.0 */
/*
 * The sequence counters of include/linux/seqlock.h in 6.1, step by step, for a
 * process. Without its checks (lockdep, KCSAN), and with a raw spinlock it
 * disables no preemption.
 */
#ifndef LINUX_SEQLOCK_H
#define LINUX_SEQLOCK_H

#include <linux/spinlock.h>

typedef struct {
	unsigned int sequence;
} seqcount_t;

typedef seqcount_t seqcount_raw_spinlock_t;

typedef struct {
	seqcount_t seqcount;
} seqcount_latch_t;

#define seqcount_raw_spinlock_init(s, lock) ((s)->sequence = 0, (void)(lock))

static inline unsigned int read_seqcount_begin(const seqcount_t *s)
{
	unsigned int sequence;

	while ((sequence = READ_ONCE(s->sequence)) & 1)
		cpu_relax();
	smp_rmb();
	return sequence;
}

static inline bool read_seqcount_retry(const seqcount_t *s, unsigned int start)
{
	smp_rmb();
	return READ_ONCE(s->sequence) != start;
}

static inline void write_seqcount_begin(seqcount_t *s)
{
	s->sequence++;
	smp_wmb();
}

static inline void write_seqcount_end(seqcount_t *s)
{
	smp_wmb();
	s->sequence++;
}

static inline void seqcount_latch_init(seqcount_latch_t *s)
{
	s->seqcount.sequence = 0;
}

static inline void raw_write_seqcount_latch(seqcount_latch_t *s)
{
	smp_wmb();
	s->seqcount.sequence++;
	smp_wmb();
}

/* The copy is loaded by an address that depends on the sequence. */
static inline unsigned int raw_read_seqcount_latch(const seqcount_latch_t *s)
{
	return READ_ONCE(s->seqcount.sequence);
}

static inline bool read_seqcount_latch_retry(const seqcount_latch_t *s,
					     unsigned int start)
{
	smp_rmb();
	return READ_ONCE(s->seqcount.sequence) != start;
}

#endif
