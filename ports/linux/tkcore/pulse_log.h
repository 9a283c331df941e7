/* SPDX-License-Identifier: GPL-2.0 */
/*
 * The log lines of pulses. A reply of the library (tkc_pps_reply) says which lines a pulse has, by
 * the counts that it raises, and the limit of the jitter, which is 16 times the mean. The lines'
 * other numbers aren't in a reply, so they are computed here, from the pulses. They are only
 * printed.
 */

#define TK_VALID 10	/* seconds that may begin after a pulse until the signal is lost */

#define TK_LOG(level, text, ...) printk_deferred(level "hardpps: " text "\n", ##__VA_ARGS__)

/* What the lines need of earlier pulses. */
static struct {
	s64 start;	/* MONOTONIC_RAW when the interval began, in ns; below 1 s there is none */
	s64 frequency;	/* of the signal, in 2^-32 ns a second */
	s32 correction;	/* of the last pulse, in ns */
	s64 left;	/* seconds that may begin until the signal is lost */
} tk_pulses;

/* Forgets the pulses, as tkc_pps_clear does. */
static void tk_pulses_clear(void)
{
	tk_pulses.start = 0;
	tk_pulses.frequency = 0;
	tk_pulses.correction = 0;
}

/* Counts seconds, as tkc_pps_seconds does. */
static void tk_pulses_seconds(s64 count)
{
	tk_pulses.left -= count;
	if (tk_pulses.left < 0) {
		tk_pulses.left = 0;
		tk_pulses_clear();
	}
}

/* Does what an answered request changes, as tkc_pps_ask does. */
static void tk_pulses_ask(const struct tkc_timex *request)
{
	if (request->modes & ADJ_SETOFFSET)
		tk_pulses_clear();
	if (request->modes & ADJ_FREQUENCY && !(request->modes & ADJ_ADJTIME))
		tk_pulses.frequency = clamp_t(s64, request->freq * PPM_SCALE, -MAXFREQ_SCALED,
					     MAXFREQ_SCALED);
}

/* Splits a time into the nearest second, which it returns, and the ns past it. */
static s64 tk_nearest(s64 nanos, s32 *past)
{
	s64 sec = div_s64_rem(nanos, NSEC_PER_SEC, past);

	if (*past <= (s32)(NSEC_PER_SEC / 2))
		return sec;
	*past -= NSEC_PER_SEC;
	return sec + 1;
}

/* Logs what is wrong with the interval that a pulse at `raw` ns ends. */
static void tk_log_interval(const struct tkc_timex *before, const struct tkc_timex *after, s64 raw)
{
	s64 sec, frequency, former = tk_pulses.frequency;
	s32 past;

	sec = tk_nearest(raw - tk_pulses.start, &past);
	if (after->errcnt != before->errcnt) {
		TK_LOG(KERN_ERR, "PPSERROR: interval too long - %lld s", sec);
		return;
	}
	frequency = div_s64(-((s64)past << NTP_SCALE_SHIFT), sec);
	if (after->stbcnt != before->stbcnt)
		TK_LOG(KERN_WARNING, "PPSWANDER: change=%ld",
		       (long)shift_right(frequency - former, NTP_SCALE_SHIFT));
	tk_pulses.frequency = frequency;
}

/* Logs what is wrong with a pulse, by the replies before and after it. */
static void tk_log_pulse(const struct tkc_timex *before, const struct tkc_timex *after, u32 nsec,
			 s64 raw)
{
	bool is_counted = after->jitcnt != before->jitcnt;
	bool is_first = tk_pulses.start < NSEC_PER_SEC;
	s32 past;

	tk_pulses.left = TK_VALID;
	if (is_first || (tkc_ntp_status(&tk_state) & STA_PPSJITTER && !is_counted)) {
		if (!is_first)
			TK_LOG(KERN_ERR, "PPSJITTER: bad pulse");
		tk_pulses.start = raw;
		return;
	}
	if (after->calcnt != before->calcnt) {
		tk_log_interval(before, after, raw);
		tk_pulses.start = raw;
	}
	tk_nearest(nsec, &past);
	if (is_counted)
		TK_LOG(KERN_WARNING, "PPSJITTER: jitter=%ld, limit=%ld",
		       (long)abs(tk_pulses.correction + past), (long)before->jitter * 16);
	tk_pulses.correction = -past;
}
