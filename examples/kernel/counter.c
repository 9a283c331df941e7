// SPDX-License-Identifier: GPL-2.0
/* The counter of the clocks, and the clocks' opening. */
#define pr_fmt(fmt) "tkc: " fmt

#include "trial.h"

#include <asm/tsc.h>
#include <linux/math64.h>
#include <linux/string.h>

enum { BITS = 64, SPAN_SEC = 600 };

/*
 * rdtsc_ordered() waits for the loads before it. By the processor's manual only
 * a fence makes the loads after it wait, and a reader must not test the
 * sequence before it reads the counter.
 */
static u64 read_tsc(void)
{
	u64 reading;

	reader_pause();
	reading = rdtsc_ordered();
	rmb();
	return reading;
}

/* ktime_get_raw() for any context, which reads by rdtsc_ordered(). */
static u64 read_raw(void)
{
	u64 reading;

	reader_pause();
	reading = ktime_get_raw_fast_ns();
	rmb();
	return reading;
}

static bool counts_tsc(void)
{
	return trial.clocks.read_counter == read_tsc;
}

/* The counter's reading at which the kernel read its clocks. */
u64 counter_reading(const struct system_time_snapshot *kernel)
{
	return counts_tsc() ? kernel->cycles : ktime_to_ns(kernel->raw);
}

static bool describe(const char *name)
{
	u32 bits, code;

	trial.clocks.read_counter = strcmp(name, "raw") ? read_tsc : read_raw;
	trial.hz = counts_tsc() ? (u64)tsc_khz * 1000 : NSEC_PER_SEC;
	code = tkc_counter_from_hz(&trial.clocks.counter, BITS, trial.hz,
				   SPAN_SEC);
	if (code) {
		pr_err("a counter of %llu Hz is refused: %s\n", trial.hz,
		       tkc_code_name(code));
		return false;
	}
	tkc_counter_numbers(&bits, &trial.mult, &trial.shift,
			    &trial.clocks.counter);
	return true;
}

bool counter_open(const char *name)
{
	struct clocks *clocks = &trial.clocks;

	if (tkc_version() != TKC_VERSION || !describe(name))
		return false;
	trial.opened = kernel_times(&trial.kernel);
	trial.time.sec = div_s64_rem(trial.kernel.of[REALTIME], NSEC_PER_SEC,
				     &trial.time.nsec);
	if (counts_tsc() && read_tsc() - trial.opened > trial.hz) {
		pr_err("the TSC isn't the clocksource: load with counter=raw\n");
		return false;
	}
	pr_info("counter %s: %llu Hz, mult %u, shift %u\n",
		counts_tsc() ? "tsc" : "raw", trial.hz, trial.mult,
		trial.shift);
	return !clocks_open(clocks, trial.opened, &trial.time);
}
