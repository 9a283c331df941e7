// SPDX-License-Identifier: GPL-2.0
/*
 * Prints what the calls of timekeeping cost, in cycles of the TSC, if "tkc_cost" is on the kernel's
 * command line. Under `qemu -icount shift=0` a cycle is an instruction. It is in both kernels.
 */
#include <linux/clocksource.h>
#include <linux/init.h>
#include <linux/irqflags.h>
#include <linux/kernel.h>
#include <linux/ktime.h>
#include <linux/sort.h>
#include <linux/timekeeping.h>
#include <linux/timex.h>
#include <asm/tsc.h>
#include "timekeeping.h"

#define CALLS 1000
#define TICKS 400	/* more than a second of them */

#define COST(call) do {							\
	u64 start, end;							\
	int i;								\
									\
	local_irq_disable();						\
	start = rdtsc_ordered();					\
	for (i = 0; i < CALLS; i++) {					\
		call;							\
		barrier();						\
	}								\
	end = rdtsc_ordered();						\
	local_irq_enable();						\
	pr_notice("RESULT cost of %s = %llu\n", #call, (end - start) / CALLS);	\
} while (0)

static bool is_wanted __initdata;

static int __init want_cost(char *ignored)
{
	is_wanted = true;
	return 1;
}
__setup("tkc_cost", want_cost);

static int __init compare_costs(const void *a, const void *b)
{
	return *(const u32 *)a < *(const u32 *)b ? -1 : *(const u32 *)a > *(const u32 *)b;
}

/* The cost of a tick: the median, and the most of those with a new second. */
static void __init print_tick_costs(void)
{
	static u32 costs[TICKS] __initdata;
	int i;

	for (i = 0; i < TICKS; i++) {
		u64 start;

		local_irq_disable();
		start = rdtsc_ordered();
		while (rdtsc_ordered() - start < tsc_khz * 1000 / HZ + 1000)
			;
		start = rdtsc_ordered();
		update_wall_time();
		costs[i] = rdtsc_ordered() - start;
		local_irq_enable();
	}
	sort(costs, TICKS, sizeof(*costs), compare_costs, NULL);
	pr_notice("RESULT cost of update_wall_time() = %u\n", costs[TICKS / 2]);
	pr_notice("RESULT cost of update_wall_time(), the most of %d = %u\n", TICKS,
		costs[TICKS - 1]);
}

static int __init tkc_cost(void)
{
	unsigned int sequence = 0;
	ktime_t real, boot, tai;
	struct timespec64 ts;

	if (!is_wanted)
		return 0;
	COST(ktime_get());
	COST(ktime_get_real());
	COST(ktime_get_boottime());
	COST(ktime_get_raw());
	COST(ktime_get_ts64(&ts));
	COST(ktime_get_real_ts64(&ts));
	COST(ktime_get_coarse_real_ts64(&ts));
	COST(ktime_get_mono_fast_ns());
	COST(ktime_get_update_offsets_now(&sequence, &real, &boot, &tai));
	print_tick_costs();
	return 0;
}
late_initcall_sync(tkc_cost);
