/* SPDX-License-Identifier: GPL-2.0 */
/*
 * The names of the kernel that examples/kernel/clocks.c uses, for a process on
 * x86-64. Barriers order what the kernel's order on x86, and no more
 * (arch/x86/include/asm/barrier.h, include/asm-generic/barrier.h).
 */
#ifndef LINUX_SPINLOCK_H
#define LINUX_SPINLOCK_H

#include <stdbool.h>
#include <stddef.h>
#include <stdint.h>

typedef uint32_t u32;
typedef uint64_t u64;
typedef int64_t s64;

#define ARRAY_SIZE(array) (sizeof(array) / sizeof((array)[0]))
#define READ_ONCE(value) (*(const volatile __typeof__(value) *)&(value))
#define WRITE_ONCE(value, next) (*(volatile __typeof__(value) *)&(value) = (next))

/* The compiler keeps the order of loads and stores; the processor may not. */
static inline void barrier(void)
{
	__asm__ volatile("" : : : "memory");
}

static inline void smp_rmb(void)
{
	barrier();
}

static inline void smp_wmb(void)
{
	barrier();
}

static inline void smp_mb(void)
{
	__asm__ volatile("lock; addl $0, -4(%%rsp)" : : : "memory", "cc");
}

/* Loads that follow wait for the instructions that precede. */
static inline void rmb(void)
{
	__asm__ volatile("lfence" : : : "memory");
}

static inline void cpu_relax(void)
{
	__asm__ volatile("rep; nop" : : : "memory");
}

/* Reads the TSC after the instructions that precede (asm/msr.h). */
static inline u64 rdtsc_ordered(void)
{
	u32 low, high, processor;

	__asm__ volatile("rdtscp"
			 : "=a"(low), "=d"(high), "=c"(processor)
			 :
			 : "memory");
	return (u64)high << 32 | low;
}

typedef struct {
	int locked;
} raw_spinlock_t;

static inline void raw_spin_lock_init(raw_spinlock_t *lock)
{
	lock->locked = 0;
}

/* A process can't hold back interrupts: `flags` is 0. */
#define raw_spin_lock_irqsave(lock, flags) ((flags) = raw_spin_lock(lock))

static inline unsigned long raw_spin_lock(raw_spinlock_t *lock)
{
	while (__atomic_exchange_n(&lock->locked, 1, __ATOMIC_ACQUIRE))
		cpu_relax();
	return 0;
}

static inline void raw_spin_unlock_irqrestore(raw_spinlock_t *lock,
					      unsigned long flags)
{
	(void)flags;
	__atomic_store_n(&lock->locked, 0, __ATOMIC_RELEASE);
}

#endif
