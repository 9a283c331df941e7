/* SPDX-License-Identifier: GPL-2.0 */
/* The signal of a pulse per second (CONFIG_NTP_PPS). Without the option, these calls do nothing. */

#ifdef CONFIG_NTP_PPS
#include "pulse_log.h"

/* The state of the signal. Only calls of the library change it, under timekeeper_lock. */
static struct tkc_pps tk_pps;

/* Makes the state of a signal without a pulse (tkc_pps_open). */
static void __init tk_open_pps(void)
{
	tkc_pps_open(&tk_pps);
}

/* Returns a number that grows by 1 with each second that begins (tkc_ntp_seconds). */
static s64 tk_seconds(void)
{
	return tkc_ntp_seconds(&tk_state);
}

/* Counts the seconds that have begun since tk_seconds() returned `before` (tkc_pps_seconds). */
static void tk_count_seconds(s64 before)
{
	s64 count = tk_seconds() - before;

	tkc_pps_seconds(&tk_pps, &tk_state, count);
	tk_pulses_seconds(count);
}

/* Clears the signal's state, if REALTIME was set or stepped (tkc_pps_clear). */
static enum tkc_code tk_clear_pps(enum tkc_code code)
{
	if (!code) {
		tkc_pps_clear(&tk_pps);
		tk_pulses_clear();
	}
	return code;
}

/*
 * Does what an answered request changes in the signal's state, and writes the signal's fields of
 * the reply and the clock's state (tkc_pps_ask, tkc_pps_reply). `status` is the one before the
 * request.
 */
static void tk_answer_pps(const struct tkc_timex *request, u32 status,
			  struct __kernel_timex *txc, int *state)
{
	tkc_pps_ask(&tk_pps, request, status);
	tk_pulses_ask(request);
	tkc_pps_reply((struct tkc_timex *)txc, state, &tk_pps);
}

/* Writes the signal's fields of a reply whose times are in ns (tkc_pps_reply). */
static void tk_fill_pps(struct tkc_timex *reply)
{
	u32 state = TKC_TIME_OK;

	reply->status = TKC_STA_NANO;
	tkc_pps_reply(reply, &state, &tk_pps);
}

/*
 * Puts back the clocks that were there before a pulse: readers have used their rate since the
 * reading at which the pulse was taken. The discipline keeps the pulse's frequency, which the clocks
 * get as the next second begins.
 */
static void tk_keep_clocks(const struct tkc_ntp *before)
{
	static u64 clocks[TKC_NTP_SAVED_WORDS], words[TKC_NTP_SAVED_WORDS];

	tkc_ntp_save(clocks, before);
	tkc_ntp_save(words, &tk_state);
	memcpy(words, clocks, TKC_SAVED_WORDS * sizeof(*words));
	tk_check(tkc_ntp_load(&tk_state, words));
}

/*
 * Takes a pulse (tkc_ntp_pulse), and logs what is wrong with it. It changes the discipline only.
 *
 * The second that the pulse marks may be due. As in the unmodified kernel, it begins at the next
 * tick, and then makes the pulse's correction. So the pulse is taken at the reading of the last
 * change, at which no second is due.
 */
static void tk_take_pulse(u32 nsec, s64 raw)
{
	static struct tkc_timex before, after;
	static struct tkc_ntp former;
	u64 last = tk_core.timekeeper.tkr_mono.cycle_last;

	former = tk_state;
	tk_fill_pps(&before);
	if (tk_check(tkc_ntp_pulse(&tk_state, &tk_pps, last, nsec, raw)))
		return;
	tk_fill_pps(&after);
	if (after.calcnt != before.calcnt)	/* the clocks may have the pulse's frequency */
		tk_keep_clocks(&former);
	tk_log_pulse(&before, &after, nsec, raw);
	WRITE_ONCE(tk_status, tkc_ntp_status(&tk_state));
}

#else

static inline void tk_open_pps(void)
{
}

static inline s64 tk_seconds(void)
{
	return 0;
}

static inline void tk_count_seconds(s64 before)
{
}

static inline enum tkc_code tk_clear_pps(enum tkc_code code)
{
	return code;
}

static inline void tk_answer_pps(const struct tkc_timex *request, u32 status,
				 struct __kernel_timex *txc, int *state)
{
}

#endif
