/* SPDX-License-Identifier: GPL-2.0 */
/*
 * Replaces each header of the kernel that kernel/time/ntp.c and
 * kernel/time/timekeeping.c of 6.1 include and that isn't taken from its sources
 * (kernel.py lists them). This kernel has one thread, no interrupts and no PPS,
 * and its callers may do all.
 */
#ifndef KERNEL_NTP_LINUX_H
#define KERNEL_NTP_LINUX_H

#include <errno.h>
#include <limits.h>
#include <stdbool.h>
#include <stddef.h>
#include <stdint.h>
#include <stdlib.h>
#include <string.h>

typedef uint8_t u8;
typedef uint16_t u16;
typedef int32_t s32, __s32;
typedef uint32_t u32, __u32;
typedef long long s64, __s64, time64_t, ktime_t;
typedef unsigned long long u64, __u64, timeu64_t;
typedef long __kernel_long_t, __kernel_old_time_t, __kernel_suseconds_t;
typedef long long __kernel_time64_t;
typedef int clockid_t;

#define BITS_PER_LONG 64
#define USER_HZ 100
#define USER_TICK_USEC (1000000UL / USER_HZ)

#define __init
#define __user
#define __must_check
#define __iomem
#define __read_mostly
#define __weak __attribute__((weak))
#define ____cacheline_aligned
#define notrace
#define noinstr
#define CONFIG_64BIT 1
#define CONFIG_CLOCKSOURCE_VALIDATE_LAST_CYCLE 1
#define IS_ENABLED(option) (option)
#define likely(x) (x)
#define unlikely(x) (x)
#define READ_ONCE(x) (x)
#define data_race(x) (x)
#define EXPORT_SYMBOL(name)
#define EXPORT_SYMBOL_GPL(name)
#define __setup(word, call) __attribute__((unused)) static int (*setup_##call)(char *) = call;
#define device_initcall(call) \
	__attribute__((unused)) static int (*initcall_##call)(void) = call;

/* The number of warnings. */
extern int kernel_warnings;

#define WARN_ON(x) ({ bool is_wrong = (x); kernel_warnings += is_wrong; is_wrong; })
#define WARN_ON_ONCE(x) ((void)WARN_ON(x))
#define printk(...) ((void)0)
#define printk_once(...) ((void)0)
#define printk_deferred(...) ((void)0)
#define pr_warn(...) ((void)0)

#define min(a, b) ({ __auto_type a_ = (a); __auto_type b_ = (b); a_ < b_ ? a_ : b_; })
#define max(a, b) ({ __auto_type a_ = (a); __auto_type b_ = (b); a_ > b_ ? a_ : b_; })
#define clamp(x, low, high) \
	({ __typeof__(x) x_ = (x); x_ < (low) ? (low) : x_ > (high) ? (high) : x_; })
#define GENMASK_ULL(high, low) (~0ULL >> (63 - (high)) & ~0ULL << (low))
#define ilog2(x) (63 - __builtin_clzll(x))
#define fls64(x) ((x) ? 64 - __builtin_clzll(x) : 0)
#define do_div(n, by) ({ u32 rest_ = (u32)((n) % (by)); (n) /= (by); rest_; })

/* No thread interrupts another. */
typedef struct { int none; } raw_spinlock_t, seqcount_raw_spinlock_t;
typedef struct { unsigned int sequence; } seqcount_latch_t;

#define DEFINE_RAW_SPINLOCK(name) raw_spinlock_t name
#define SEQCNT_RAW_SPINLOCK_ZERO(name, lock) { 0 }
#define SEQCNT_LATCH_ZERO(name) { 0 }
#define raw_spin_lock_irqsave(lock, flags) ((void)(lock), (void)((flags) = 0))
#define raw_spin_unlock_irqrestore(lock, flags) ((void)(lock), (void)(flags))
#define write_seqcount_begin(s) ((void)(s))
#define write_seqcount_end(s) ((void)(s))
#define read_seqcount_begin(s) ((void)(s), 0u)
#define read_seqcount_retry(s, start) ((void)(s), (start) != 0)
#define raw_write_seqcount_latch(s) ((s)->sequence++)
#define raw_read_seqcount_latch(s) ((s)->sequence)
#define raw_read_seqcount_latch_retry(s, start) ((s)->sequence != (start))

struct module;
struct device_node;
struct notifier_block;
struct timekeeper;
struct list_head {
	struct list_head *next, *prev;
};
struct raw_notifier_head {
	int none;
};
struct syscore_ops {
	int (*suspend)(void);
	void (*resume)(void);
};

#define RAW_NOTIFIER_HEAD(name) struct raw_notifier_head name
#define raw_notifier_call_chain(head, was_set, tk) ((void)(head), (void)(was_set), (void)(tk))
#define raw_notifier_chain_register(head, nb) ((void)(nb), 0)
#define raw_notifier_chain_unregister(head, nb) ((void)(nb), 0)
#define register_syscore_ops(ops) ((void)(ops))

/* The rest of the kernel. */
struct audit_ntp_data {
	int none;
};

#define audit_ntp_init(ad) ((void)(ad))
#define audit_ntp_set_old(ad, type, value) ((void)(ad))
#define audit_ntp_set_new(ad, type, value) ((void)(ad))
#define audit_ntp_log(ad) ((void)(ad))
#define audit_tk_injoffset(offset) ((void)(offset))
#define add_device_randomness(from, size) ((void)(from))
#define capable(capability) true
#define CLOCK_SET_WALL 1
#define clock_was_set(bases) ((void)(bases))
#define clock_was_set_delayed() ((void)0)
#define timerfd_resume() ((void)0)
#define clockevents_suspend() ((void)0)
#define clockevents_resume() ((void)0)
#define tick_suspend() ((void)0)
#define tick_resume() ((void)0)
#define tick_clock_notify() ((void)0)
#define touch_softlockup_watchdog() ((void)0)
#define calc_global_load() ((void)0)
#define module_put(owner) ((void)(owner))
#define try_module_get(owner) ((void)(owner), true)
#define stop_machine(call, data, cpus) ((call)(data))
#define local_clock() 0ULL
#define kstrtos64(text, base, out) ((void)(text), (void)(out), 0)

extern u64 jiffies_64;

#endif
