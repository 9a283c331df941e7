// SPDX-License-Identifier: GPL-2.0
/*
 * The changes of the clocks, as calls of the library. timekeeping.c includes this file at its end.
 *
 * What stays in timekeeping.c is its lock, its sequence counter and its latch, the readers, the
 * readings of the clocksources, permissions, and notifications.
 */
#include "ntp_status.h"
#include "line.h"
#include "asked.h"
#include "pps.h"
#include "late.h"

/*
 * The beginning of a change. It returns the reading at which the change happens.
 *
 * The counter is read after the sequence is odd for all processors. The unmodified kernel reads it
 * before: a reader that reads the counter in between, and finds the sequence even, counts these
 * cycles at the old rate. Where the new rate is lower, a later read gives less, and MONOTONIC falls.
 *
 * A reading behind the last one is taken as the last one, as clocksource_delta() does. Clocksources
 * may return more bits than their mask has, as jiffies do.
 */
static u64 tk_begin(unsigned long *flags)
{
	const struct tk_read_base *tkr = &tk_core.timekeeper.tkr_mono;
	u64 now;

	raw_spin_lock_irqsave(&timekeeper_lock, *flags);
	tk_sse_save();
	write_seqcount_begin(&tk_core.seq);
	smp_mb();
	now = tk_clock_read(tkr) & tkr->mask;
	if (((now - tkr->cycle_last) & tkr->mask) > tkr->mask >> 1)
		now = tkr->cycle_last;
	return now;
}

/*
 * timekeeping_update - publishes tk_state (tkc_ntp_snapshot). Returns whether REALTIME or TAI was
 * set.
 */
static bool timekeeping_update(struct timekeeper *tk, unsigned int action)
{
	bool is_tick = action == TK_TICK;

	if (!is_tick)
		tkc_ntp_snapshot(&tk_snapshot, &tk_state);
	if (tk_fill(tk, is_tick))
		action |= TK_CLOCK_WAS_SET;
	/* Only a second, a request or a command changes a leap or the status. */
	if (!is_tick)
		tk_ask(tk);
	update_vsyscall(tk);
	update_pvclock_gtod(tk, action & TK_CLOCK_WAS_SET);
	update_fast_timekeeper(&tk->tkr_mono, &tk_fast_mono);
	update_fast_timekeeper(&tk->tkr_raw, &tk_fast_raw);
	if (action & TK_CLOCK_WAS_SET)
		tk->clock_was_set_seq++;
	return action & TK_CLOCK_WAS_SET;
}

/* The end of a change: publishes it. Returns whether REALTIME or TAI was set. */
static bool tk_end(unsigned long flags, unsigned int action)
{
	bool was_set = timekeeping_update(&tk_core.timekeeper, action);

	write_seqcount_end(&tk_core.seq);
	tk_sse_restore();
	raw_spin_unlock_irqrestore(&timekeeper_lock, flags);
	return was_set;
}

/* Applies a command (tkc_ntp_apply), after the seconds up to its reading have begun. */
static enum tkc_code tk_command(u64 now, u32 command, s64 sec, u32 nsec)
{
	enum tkc_code code = tk_forward(now);

	return code ?: tkc_ntp_apply(&tk_state, now, command, sec, nsec);
}

#include "clocksource.h"
#include "request.h"

/* do_settimeofday64 - sets REALTIME (TKC_CMD_SET_TIME) */
int do_settimeofday64(const struct timespec64 *ts)
{
	struct timekeeper *tk = &tk_core.timekeeper;
	enum tkc_code code;
	unsigned long flags;
	ktime_t before;
	u64 now;

	if (!timespec64_valid_settod(ts))
		return -EINVAL;
	now = tk_begin(&flags);
	before = tk->offs_real;
	code = tk_clear_pps(tk_command(now, TKC_CMD_SET_TIME, ts->tv_sec, ts->tv_nsec));
	tk_end(flags, TK_CLOCK_WAS_SET);
	clock_was_set(CLOCK_SET_WALL);
	if (!code) {
		audit_tk_injoffset(ktime_to_timespec64(ktime_sub(tk->offs_real, before)));
		add_device_randomness(ts, sizeof(*ts));
	}
	return tk_errno(code);
}
EXPORT_SYMBOL(do_settimeofday64);

/* timekeeping_inject_offset - moves REALTIME (TKC_CMD_STEP) */
static int timekeeping_inject_offset(const struct timespec64 *ts)
{
	enum tkc_code code;
	unsigned long flags;
	u64 now;

	if (ts->tv_nsec < 0 || ts->tv_nsec >= NSEC_PER_SEC)
		return -EINVAL;
	now = tk_begin(&flags);
	code = tk_clear_pps(tk_command(now, TKC_CMD_STEP, ts->tv_sec, ts->tv_nsec));
	tk_end(flags, TK_CLOCK_WAS_SET);
	clock_was_set(CLOCK_SET_WALL);
	return tk_errno(code);
}

/*
 * timekeeping_max_deferment - how long a tick may be left out: a second
 *
 * A reader can convert 34 s and more. But a second makes up for what the last one lagged behind, at a
 * rate for one second. Where that rate lasts for two seconds or longer, since no tick begins the next
 * one, it makes up for twice the lag or more, and MONOTONIC swings by milliseconds.
 */
u64 timekeeping_max_deferment(void)
{
	return NSEC_PER_SEC;
}

/* Reads the persistent clock: REALTIME, and the time since the boot, which is never more. */
static void __init tk_read_boot_times(struct timespec64 *wall, struct timespec64 *boot)
{
	read_persistent_wall_and_boot_offset(wall, boot);
	if (!timespec64_valid_settod(wall)) {
		pr_warn("timekeeping: the persistent clock's time is out of range\n");
		*wall = (struct timespec64){};
	}
	persistent_clock_exists = wall->tv_sec || wall->tv_nsec;
	if (timespec64_compare(wall, boot) < 0)
		*boot = (struct timespec64){};
}

/* timekeeping_init - opens the clocks on the clocksource of the boot (tkc_ntp_open_at) */
void __init timekeeping_init(void)
{
	struct clocksource *clock = clocksource_default_clock();
	struct timespec64 wall, boot;
	struct tkc_counter counter;
	unsigned long flags;
	u64 now;

	tk_read_boot_times(&wall, &boot);
	tk_raw_from = boot;
	tk_sse_enable();
	raw_spin_lock_irqsave(&timekeeper_lock, flags);
	tk_sse_save();
	write_seqcount_begin(&tk_core.seq);
	ntp_init();
	if (clock->enable)
		clock->enable(clock);
	tk_setup_internals(&tk_core.timekeeper, clock);
	now = clock->read(clock) & clock->mask;
	if (tk_counter(&counter, clock) ||
	    tkc_ntp_open_at(&tk_state, &counter, now, wall.tv_sec, wall.tv_nsec, boot.tv_sec,
			    boot.tv_nsec, HZ))
		panic("timekeeping: the clocks don't open\n");
	tk_open_pps();
	tk_open_frequency(now);
	tk_end(flags, TK_CLOCK_WAS_SET);
}

#include "sleep.h"
#include "hardpps.h"

/*
 * timekeeping_advance - a tick: brings the clocks forward with the seconds that are due. Returns
 * whether a leap second was made. At most ticks only time has passed.
 */
static bool timekeeping_advance(enum timekeeping_adv_mode mode)
{
	struct timekeeper *tk = &tk_core.timekeeper;
	unsigned long flags;
	u32 changed;
	u64 now;

	if (timekeeping_suspended ||
	    clocksource_delta(tk_clock_read(&tk->tkr_mono), tk->tkr_mono.cycle_last,
			      tk->tkr_mono.mask) < tk->cycle_interval)
		return false;
	now = tk_begin(&flags);
	tk_pass(now, &changed);
	return tk_end(flags, changed ? 0 : TK_TICK);
}

/* timekeeping_ntp_status - the status bits, for the synchronization of the RTC */
int timekeeping_ntp_status(void)
{
	return READ_ONCE(tk_status);
}
