/* SPDX-License-Identifier: GPL-2.0 */
/* Clocksources as counters of the library. */
#include "change_counter.h"

/* The most bits of shift, to which a clocksource's are raised: at 28, 61 ns of error become 7. */
#ifndef TKC_SHIFT
#define TKC_SHIFT 28
#endif

/*
 * By how many bits mult and shift of a clocksource are raised. The rate stays the same, and a
 * frequency takes effect in finer steps: 10 ppb instead of 161 at 2.7 GHz.
 */
static unsigned int tk_finer(const struct clocksource *clock)
{
	u64 most = clock->mult + clock->mult / 9 + 1;	/* 11 % more, for adjtimex() */
	unsigned int by = 0;

	while (clock->shift + by < TKC_SHIFT && most << (by + 1) <= U32_MAX)
		by++;
	return by;
}

/* The library's description of a clocksource (tkc_counter_new). */
static enum tkc_code tk_counter(struct tkc_counter *counter, const struct clocksource *clock)
{
	unsigned int by = tk_finer(clock);

	return tkc_counter_new(counter, fls64(clock->mask), clock->mult << by, clock->shift + by);
}

/* tk_setup_internals - the kernel's numbers of a clocksource, besides those of the snapshot */
static void tk_setup_internals(struct timekeeper *tk, struct clocksource *clock)
{
	unsigned int by = tk_finer(clock);
	u64 interval = ((u64)NTP_INTERVAL_LENGTH << clock->shift) + clock->mult / 2;

	tk->cs_was_changed_seq++;
	tk->tkr_mono.clock = tk->tkr_raw.clock = clock;
	tk->tkr_mono.mask = tk->tkr_raw.mask = clock->mask;
	tk->tkr_mono.shift = tk->tkr_raw.shift = clock->shift + by;
	tk->tkr_raw.mult = clock->mult << by;
	tk->cycle_interval = max_t(u64, div_u64(interval, clock->mult), 1);
}

/*
 * Goes on with the readings of another clocksource (tkc_clock_change_counter). The step of nothing
 * clears the discipline and the lag, as ntp_clear() does and the kernel clears ntp_error.
 */
static enum tkc_code tk_switch(u64 now, struct clocksource *to)
{
	u64 first = to->read(to) & to->mask;
	struct tkc_counter counter;
	enum tkc_code code = tk_counter(&counter, to);

	if (!code)
		code = tk_forward(now);
	if (!code)
		code = tk_change_counter(now, &counter, first);
	if (!code)
		code = tk_clear_pps(tkc_ntp_apply(&tk_state, first, TKC_CMD_STEP, 0, 0));
	return tk_check(code);
}

/* change_clocksource - takes another clocksource, unless it can't be had or used */
static int change_clocksource(void *data)
{
	struct timekeeper *tk = &tk_core.timekeeper;
	struct clocksource *to = data, *unused = to;
	unsigned long flags;
	u64 now;

	if (!try_module_get(to->owner))
		return 0;
	if (to->enable && to->enable(to)) {
		module_put(to->owner);
		return 0;
	}
	now = tk_begin(&flags);
	if (!tk_switch(now, to)) {
		unused = tk->tkr_mono.clock;
		tk_setup_internals(tk, to);
	}
	tk_end(flags, TK_CLOCK_WAS_SET);
	clock_was_set_delayed();	/* (a leap second may have begun) */
	if (unused->disable)
		unused->disable(unused);
	module_put(unused->owner);
	return 0;
}
