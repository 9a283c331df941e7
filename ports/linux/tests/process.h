/* SPDX-License-Identifier: GPL-2.0 */
/*
 * What the port uses of the kernel beyond tests/kernel_ntp/linux.h, in a process.
 */
#include <stdio.h>
#include <string.h>
#include "linux.h"

/* Lets the RTC report sleeps. */
#define CONFIG_PM_SLEEP 1
#define CONFIG_RTC_HCTOSYS_DEVICE "rtc0"

#define CLOCK_SET_BOOT 2
#define KERN_ERR "<3>"
#define KERN_WARNING "<4>"
#define KERN_NOTICE "<5>"
#define __aligned(bytes) __attribute__((aligned(bytes)))
#define X86_CR4_OSFXSR 0
#define U32_MAX UINT32_MAX
#define U64_MAX UINT64_MAX
#define WRITE_ONCE(x, value) ((x) = (value))
#define smp_mb() __sync_synchronize()
#define max_t(type, a, b) max((type)(a), (type)(b))
#define clamp_t(type, x, low, high) clamp((type)(x), (type)(low), (type)(high))
#define cr4_set_bits(bits) ((void)(bits))
#define panic(text) (fputs(text, stderr), abort())
#define WARN_ONCE(x, text, ...) \
	(WARN_ON(x) ? (void)fprintf(stderr, text, __VA_ARGS__) : (void)0)
#define BUILD_BUG_ON(x) _Static_assert(!(x), #x)

#define div_s64(a, b) ((s64)(a) / (s32)(b))

/*
 * What calls have logged: audit records, the times that REALTIME was moved by, and leap seconds; and
 * how many calls inform timers of a set clock, and the RTC of a request.
 */
enum { AUDIT_NTP_OFFSET, AUDIT_NTP_FREQ, AUDIT_NTP_STATUS, AUDIT_NTP_TAI, AUDIT_NTP_TICK,
       AUDIT_NTP_ADJUST, AUDIT_NTP_NVALS };
struct process_log {
	s64 old[AUDIT_NTP_NVALS], new[AUDIT_NTP_NVALS], records, moved_sec, moved_nsec, moves;
	s64 inserted, deleted, sets, notes;
};
extern struct process_log process_log;
extern void process_print(const char *format, ...);

#undef audit_ntp_init
#undef audit_ntp_set_old
#undef audit_ntp_set_new
#undef audit_ntp_log
#undef audit_tk_injoffset
#undef printk_deferred
#define audit_dummy_context() false
#define audit_ntp_init(ad) ((ad)->none = 0)
#define audit_ntp_set_old(ad, type, value) ((void)(ad), process_log.old[type] = (value))
#define audit_ntp_set_new(ad, type, value) ((void)(ad), process_log.new[type] = (value))
#define audit_ntp_log(ad) ((void)(ad), process_log.records++)
#define audit_tk_injoffset(offset) (process_log.moves++, \
	process_log.moved_sec = (offset).tv_sec, process_log.moved_nsec = (offset).tv_nsec)
#define printk_deferred(...) process_print(__VA_ARGS__)

#undef clock_was_set
#undef clock_was_set_delayed
#define clock_was_set(bases) ((void)(bases), (void)process_log.sets++)
#define clock_was_set_delayed() ((void)process_log.sets++)

/* The uses of each counter and of its module; and whether the next counter's enable() fails. */
struct process_uses {
	s32 enabled[2], modules, is_broken, is_gone;	/* (is_gone: its module can't be used) */
};
extern struct process_uses process_uses;

#undef try_module_get
#undef module_put
#define try_module_get(owner) ((void)(owner), !process_uses.is_gone && ++process_uses.modules)
#define module_put(owner) ((void)(owner), (void)process_uses.modules--)

/* ntp_tick_adj= may have any number. */
extern s64 process_tick_adj;
#undef kstrtos64
#define kstrtos64(text, base, out) ((void)(text), *(out) = process_tick_adj, 0)

/* The time since the machine started, when the clocks are opened. */
extern u64 process_uptime;
#undef local_clock
#define local_clock() process_uptime

/* (kernel/time/timekeeping.h) */
extern int timekeeping_suspend(void);
extern void timekeeping_resume(void);
#include "process_sse.h"
