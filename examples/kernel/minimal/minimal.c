// SPDX-License-Identifier: GPL-2.0
/*
 * The smallest module over the library: clocks of the TSC, which it opens when it is loaded, and
 * whose MONOTONIC it prints when it is removed. ../clocks.c has what a kernel needs besides: a lock
 * for commands, and snapshots for readers in any context.
 */
#include <asm/msr.h>
#include <asm/tsc.h>
#include <linux/module.h>
#include <linux/timekeeping.h>
#include <tkcore.h>

static struct tkc_clock clock;

/* Opens clocks of the TSC at the kernel's time. The TSC has 64 bits, so half its range is decades. */
static enum tkc_code open_clock(void)
{
	struct timespec64 now;
	struct tkc_counter counter;
	enum tkc_code code = tkc_counter_from_khz(&counter, 64, tsc_khz, 600);

	if (code != TKC_OK)
		return code;
	ktime_get_real_ts64(&now);
	return tkc_clock_open(&clock, &counter, rdtsc_ordered(), now.tv_sec, now.tv_nsec);
}

static int __init minimal_init(void)
{
	enum tkc_code code = open_clock();

	if (code != TKC_OK) {
		pr_err("tkc_minimal: %s\n", tkc_code_name(code));
		return -EINVAL;
	}
	pr_info("tkc_minimal: opened clocks of a TSC of %u kHz\n", tsc_khz);
	return 0;
}

static void __exit minimal_exit(void)
{
	struct tkc_snapshot snapshot;
	struct tkc_time time;
	enum tkc_code code = tkc_clock_update(&clock, rdtsc_ordered());

	if (code == TKC_OK) {
		tkc_clock_snapshot(&snapshot, &clock);
		code = tkc_snapshot_get(&time, &snapshot, TKC_CLOCK_MONOTONIC, rdtsc_ordered());
	}
	if (code == TKC_OK)
		pr_info("tkc_minimal: open for %lld.%09u s\n", time.sec, time.nsec);
	else
		pr_err("tkc_minimal: %s\n", tkc_code_name(code));
}

module_init(minimal_init);
module_exit(minimal_exit);
MODULE_LICENSE("GPL");
MODULE_DESCRIPTION("The smallest module over the timekeeping library tkcore");
