/* SPDX-License-Identifier: GPL-2.0 */
/*
 * Sleep of the machine. A sleep's length comes from a clocksource that doesn't stop, from the
 * persistent clock, or later from the RTC, in this order.
 */

/* The persistent clock when the machine went to sleep. */
static struct timespec64 tk_slept_since;

#if defined(CONFIG_PM_SLEEP) && defined(CONFIG_RTC_HCTOSYS_DEVICE)
/*
 * timekeeping_inject_sleeptime64 - adds a sleep that the RTC reports after it has ended: a sleep
 * without cycles (TKC_CMD_SUSPEND and TKC_CMD_RESUME at one reading). The step of nothing clears
 * the discipline, as ntp_clear() does.
 */
void timekeeping_inject_sleeptime64(const struct timespec64 *delta)
{
	unsigned long flags;
	u64 now = tk_begin(&flags);

	suspend_timing_needed = false;
	if (!tk_check(tk_command(now, TKC_CMD_SUSPEND, 0, 0))) {
		if (tkc_ntp_apply(&tk_state, now, TKC_CMD_RESUME, delta->tv_sec, delta->tv_nsec)) {
			printk_deferred(KERN_WARNING "timekeeping: a sleep is out of range\n");
			tk_check(tkc_ntp_apply(&tk_state, now, TKC_CMD_RESUME, 0, 0));
		} else {
			tk_debug_account_sleep_time(delta);
		}
		tk_clear_pps(tk_check(tkc_ntp_apply(&tk_state, now, TKC_CMD_STEP, 0, 0)));
	}
	tk_end(flags, TK_CLOCK_WAS_SET);
	clock_was_set(CLOCK_SET_WALL | CLOCK_SET_BOOT);
}
#endif

/* How long the machine has slept, by a clocksource or by the persistent clock, or 0. */
static struct timespec64 tk_sleep_time(u64 now, const struct timespec64 *persistent)
{
	u64 nsec = clocksource_stop_suspend_timing(tk_core.timekeeper.tkr_mono.clock, now);

	if (nsec > 0)
		return ns_to_timespec64(nsec);
	if (timespec64_compare(persistent, &tk_slept_since) > 0)
		return timespec64_sub(*persistent, tk_slept_since);
	return (struct timespec64){};
}

/* timekeeping_resume - wakes the clocks (TKC_CMD_RESUME) */
void timekeeping_resume(void)
{
	const struct tk_read_base *tkr = &tk_core.timekeeper.tkr_mono;
	struct timespec64 persistent, slept;
	unsigned long flags;
	u64 now;

	read_persistent_clock64(&persistent);
	clockevents_resume();
	clocksource_resume();

	raw_spin_lock_irqsave(&timekeeper_lock, flags);
	tk_sse_save();
	write_seqcount_begin(&tk_core.seq);
	now = tk_clock_read(tkr) & tkr->mask;
	slept = tk_sleep_time(now, &persistent);
	if (slept.tv_sec || slept.tv_nsec) {
		suspend_timing_needed = false;
		tk_debug_account_sleep_time(&slept);
	}
	tk_check(tkc_ntp_apply(&tk_state, now, TKC_CMD_RESUME, slept.tv_sec, slept.tv_nsec));
	timekeeping_suspended = 0;
	tk_end(flags, TK_CLOCK_WAS_SET);

	touch_softlockup_watchdog();
	tick_resume();
	timerfd_resume();
}

/*
 * Lets repeated sleeps add no drift: the persistent clock has only seconds, so REALTIME minus its
 * time is kept at what it was at the last sleep, unless it has changed by 2 s or more, as by a set.
 */
static void tk_keep_difference(struct timespec64 real)
{
	static struct timespec64 kept;
	struct timespec64 difference = timespec64_sub(real, tk_slept_since);
	struct timespec64 change = timespec64_sub(difference, kept);

	if (abs(change.tv_sec) >= 2)
		kept = difference;
	else
		tk_slept_since = timespec64_add(tk_slept_since, change);
}

/* timekeeping_suspend - puts the clocks to sleep (TKC_CMD_SUSPEND) */
int timekeeping_suspend(void)
{
	struct timekeeper *tk = &tk_core.timekeeper;
	unsigned long flags;
	u64 now;

	read_persistent_clock64(&tk_slept_since);
	if (tk_slept_since.tv_sec || tk_slept_since.tv_nsec)
		persistent_clock_exists = true;
	suspend_timing_needed = true;

	now = tk_begin(&flags);
	tk_check(tk_command(now, TKC_CMD_SUSPEND, 0, 0));
	timekeeping_suspended = 1;
	clocksource_start_suspend_timing(tk->tkr_mono.clock, now);
	timekeeping_update(tk, 0);
	if (persistent_clock_exists)
		tk_keep_difference(tk_xtime(tk));
	halt_fast_timekeeper(tk);
	write_seqcount_end(&tk_core.seq);
	tk_sse_restore();
	raw_spin_unlock_irqrestore(&timekeeper_lock, flags);

	tick_suspend();
	clocksource_suspend();
	clockevents_suspend();
	return 0;
}
