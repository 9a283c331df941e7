// SPDX-License-Identifier: GPL-2.0
/*
 * Gives a kernel with CONFIG_NTP_PPS a pulse a second, for the seconds of "tkc_pulses=" on the
 * kernel's command line, and logs what adjtimex(2) answers after each. It is in both kernels.
 *
 * The signal is noisy, changes its rate, is lost once, and has pulses that are missing or wrong. Its
 * pulses come at set times of MONOTONIC_RAW, and their times are computed for these. So an answer
 * doesn't depend on how long instructions take, except for what REALTIME's own error is part of.
 */
#include <linux/delay.h>
#include <linux/init.h>
#include <linux/irqflags.h>
#include <linux/kernel.h>
#include <linux/ktime.h>
#include <linux/timekeeping.h>
#include <linux/timex.h>
#include "timekeeping.h"

#define FIRST_NS (3 * NSEC_PER_MSEC)	/* that REALTIME is ahead at the start */
#define LAST 60				/* seconds at the end in which REALTIME must be near */
#define NEAR_NS 500
#define STATUS (STA_PPSSIGNAL | STA_PPSWANDER | STA_PPSERROR)

static unsigned int seconds __initdata;

static int __init want_pulses(char *word)
{
	return !kstrtouint(word, 0, &seconds);
}
__setup("tkc_pulses=", want_pulses);

/* How long MONOTONIC_RAW takes from one second of the signal to the next, in ns. */
static s64 __init length_of(unsigned int second)
{
	return NSEC_PER_SEC + (second < 60 ? 30000 : second < 120 ? -150000 : -40000);
}

/* Whether a second has no pulse: some at the first interval, and enough to lose the signal. */
static bool __init is_missing(unsigned int second)
{
	return (second > 3 && second < 12) || (second >= 130 && second < 150);
}

/* By how many ns a pulse comes late or early. */
static s64 __init noise(void)
{
	static u32 state __initdata = 1;

	state = state * 1664525 + 1013904223;
	return (s64)((state >> 16) % 401) - 200;
}

/* Waits until a little before a time of MONOTONIC_RAW, whatever the rate of MONOTONIC is. */
static void __init wait_for(s64 raw)
{
	s64 rest;

	while ((rest = raw - (s64)ktime_get_raw_ns()) > 2 * NSEC_PER_MSEC)
		usleep_range(rest / 2000, rest / 2000 + 100);
}

/* A pulse comes at a time of MONOTONIC_RAW. Returns what REALTIME is ahead of it, in ns. */
static s64 __init take_pulse(s64 raw)
{
	struct system_time_snapshot snapshot;
	struct timespec64 real_time, raw_time;
	unsigned long flags;

	wait_for(raw);
	local_irq_save(flags);
	do
		ktime_get_snapshot(&snapshot);
	while (snapshot.raw < raw);
	real_time = ns_to_timespec64(snapshot.real - (snapshot.raw - raw));
	raw_time = ns_to_timespec64(raw);
	hardpps(&real_time, &raw_time);
	local_irq_restore(flags);
	return real_time.tv_nsec - (real_time.tv_nsec > NSEC_PER_SEC / 2 ? NSEC_PER_SEC : 0);
}

/* Logs what adjtimex answers: first what is the same in both kernels. */
static void __init log_answer(unsigned int second, s64 ahead)
{
	struct __kernel_timex txc = { };

	do_adjtimex(&txc);
	pr_info("ANSWER pulse %u: status %#x freq %lld ppsfreq %lld shift %d stabil %lld calcnt %lld "
		"errcnt %lld stbcnt %lld\n", second, txc.status & STATUS, txc.freq, txc.ppsfreq,
		txc.shift, txc.stabil, txc.calcnt, txc.errcnt, txc.stbcnt);
	pr_info("tkc: pulse %u: REALTIME is %lld ns ahead, jitter %lld, jitcnt %lld\n", second, ahead,
		txc.jitter, txc.jitcnt);
}

/* Returns the time of MONOTONIC_RAW at which REALTIME is FIRST_NS ahead of a second. */
static s64 __init first_second(void)
{
	struct system_time_snapshot snapshot;

	ktime_get_snapshot(&snapshot);
	return snapshot.raw + FIRST_NS + NSEC_PER_SEC - snapshot.real % NSEC_PER_SEC;
}

static int __init tkc_pulses(void)
{
	struct __kernel_timex request = { .modes = ADJ_STATUS | ADJ_NANO,
					  .status = STA_PLL | STA_PPSFREQ | STA_PPSTIME };
	s64 raw, ahead = 0, worst = 0;
	unsigned int second;

	if (!seconds)
		return 0;
	do_adjtimex(&request);
	raw = first_second();
	for (second = 0; second < seconds; second++) {
		raw += length_of(second);
		if (!is_missing(second))
			ahead = take_pulse(raw + noise());
		if (second == 200)
			take_pulse(raw + 300 * NSEC_PER_MSEC);
		wait_for(raw + NSEC_PER_SEC / 2);
		log_answer(second, ahead);
		if (second + LAST >= seconds)
			worst = max(worst, abs(ahead));
	}
	pr_notice("tkc: REALTIME was at most %lld ns off at the end\n", worst);
	pr_notice("RESULT REALTIME follows a pulse per second = %d\n", worst > NEAR_NS);
	return 0;
}
late_initcall_sync(tkc_pulses);
