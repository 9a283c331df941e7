// SPDX-License-Identifier: GPL-2.0
/*
 * Tests calls that no program reaches, if "tkc_calls" is on the kernel's command line: clocksources
 * that come and go, one whose enable() fails, and cross timestamps (get_device_system_crosststamp).
 * It is in both kernels, and prints a line of the table for each test: 0 is a pass.
 */
#include <linux/clocksource.h>
#include <linux/delay.h>
#include <linux/init.h>
#include <linux/kernel.h>
#include <linux/ktime.h>
#include <linux/timekeeping.h>
#include <linux/timex.h>
#include <asm/tsc.h>
#include "timekeeping.h"

#define APART_NS 20	/* by which an interpolated time may be off */
#define TICKS_MS 50

static bool is_wanted __initdata;
static int enabled, failed, disabled;

static int __init want_calls(char *ignored)
{
	is_wanted = true;
	return 1;
}
__setup("tkc_calls", want_calls);

static u64 read_counter(struct clocksource *clock)
{
	return rdtsc_ordered();
}

static int enable_counter(struct clocksource *clock)
{
	enabled++;
	return 0;
}

static void disable_counter(struct clocksource *clock)
{
	disabled++;
}

static int fail_to_enable(struct clocksource *clock)
{
	failed++;
	return -EIO;
}

static struct clocksource counter = {
	.name = "tkc", .rating = 400, .mask = CLOCKSOURCE_MASK(64), .read = read_counter,
	.flags = CLOCK_SOURCE_IS_CONTINUOUS | CLOCK_SOURCE_VALID_FOR_HRES,
	.enable = enable_counter, .disable = disable_counter,
};

static struct clocksource broken = {
	.name = "tkc_broken", .rating = 450, .mask = CLOCKSOURCE_MASK(64), .read = read_counter,
	.flags = CLOCK_SOURCE_IS_CONTINUOUS | CLOCK_SOURCE_VALID_FOR_HRES,
	.enable = fail_to_enable, .disable = disable_counter,
};

static void __init print_result(const char *test, bool is_well)
{
	pr_notice("RESULT %s = %d\n", test, !is_well);
}

/* What a device gives: the reading of the counter at which it took its own time. */
static int device_time(ktime_t *device, struct system_counterval_t *system, void *reading)
{
	*device = 0;
	system->cycles = reading ? *(u64 *)reading : rdtsc_ordered();
	system->cs = &counter;
	return 0;
}

/* A reading of now must be between two reads of the same clocks. */
static bool __init is_now_between(void)
{
	ktime_t real = ktime_get_real(), raw = ktime_get_raw();
	struct system_device_crosststamp stamp;

	if (get_device_system_crosststamp(device_time, NULL, NULL, &stamp))
		return false;
	return real <= stamp.sys_realtime && stamp.sys_realtime <= ktime_get_real() &&
	       raw <= stamp.sys_monoraw && stamp.sys_monoraw <= ktime_get_raw();
}

/*
 * A reading of ticks ago must have the times that were read around it. The kernel interpolates
 * between a snapshot from before and its last tick.
 */
static bool __init is_past_known(void)
{
	struct system_device_crosststamp stamp;
	ktime_t real, real_after, raw, raw_after;
	struct system_time_snapshot before;
	u64 reading;

	ktime_get_snapshot(&before);
	mdelay(TICKS_MS);
	real = ktime_get_real();
	raw = ktime_get_raw();
	reading = rdtsc_ordered();
	real_after = ktime_get_real();
	raw_after = ktime_get_raw();
	mdelay(TICKS_MS);
	if (get_device_system_crosststamp(device_time, &reading, &before, &stamp))
		return false;
	return real - APART_NS <= stamp.sys_realtime && stamp.sys_realtime <= real_after + APART_NS &&
	       raw - APART_NS <= stamp.sys_monoraw && stamp.sys_monoraw <= raw_after + APART_NS;
}

/* A reading from before the snapshot, and one without a snapshot, can't be converted. */
static bool __init is_unknown_refused(void)
{
	struct system_device_crosststamp stamp;
	struct system_time_snapshot before;
	u64 reading = rdtsc_ordered();

	mdelay(TICKS_MS);
	ktime_get_snapshot(&before);
	mdelay(TICKS_MS);
	return get_device_system_crosststamp(device_time, &reading, &before, &stamp) == -EINVAL &&
	       get_device_system_crosststamp(device_time, &reading, NULL, &stamp) == -EINVAL;
}

static int __init tkc_calls(void)
{
	ktime_t before = ktime_get();

	if (!is_wanted)
		return 0;
	clocksource_register_khz(&counter, tsc_khz);
	print_result("a clocksource of a higher rating is enabled", enabled == 1 && !disabled);
	clocksource_register_khz(&broken, tsc_khz);
	print_result("a clocksource whose enable() fails", failed && enabled == 1 && !disabled);
	print_result("a cross timestamp of now", is_now_between());
	print_result("a cross timestamp of the past", is_past_known());
	print_result("a cross timestamp of an unknown past", is_unknown_refused());
	clocksource_unregister(&broken);
	clocksource_unregister(&counter);
	print_result("a clocksource that goes is disabled", enabled == 1 && disabled == 1);
	print_result("MONOTONIC goes on", ktime_get() > before);
	return 0;
}
late_initcall_sync(tkc_calls);
