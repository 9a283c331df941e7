/* SPDX-License-Identifier: GPL-2.0 */
/* Requests of adjtimex(2), with their audit records and the parameter ntp_tick_adj=. */

/*
 * What ntp_tick_adj= adds to each second, as a frequency in 2^-16 ppm. The discipline's frequency has
 * it from the start on, and requests and replies are without it. So the limit of 500 ppm is one of
 * the sum; the unmodified kernel's is one of the rest.
 */
static s64 tk_tick_adj;

/* ntp_tick_adj= - ns that each second gains */
static int __init tk_tick_adj_setup(char *word)
{
	s64 ns;
	int error = kstrtos64(word, 0, &ns);

	if (error)
		return error;
	tk_tick_adj = div_s64(ns << 16, 1000);
	return 1;
}
__setup("ntp_tick_adj=", tk_tick_adj_setup);

/* Gives the clocks that have just been opened the frequency of ntp_tick_adj=. */
static void __init tk_open_frequency(u64 now)
{
	struct tkc_timex request = { .modes = ADJ_FREQUENCY, .freq = tk_tick_adj };
	u32 state;

	if (tk_tick_adj)
		tk_check(tkc_adjtimex(&request, &state, &tk_state, now));
}

/* Takes the numbers of which an audit record has the changes, by the words of tkc_ntp_save. */
static void tk_take(struct audit_ntp_data *audit, bool is_old, u32 modes)
{
	u64 words[TKC_NTP_SAVED_WORDS];
	s64 taken[AUDIT_NTP_NVALS];
	int i;

	tkc_ntp_save(words, &tk_state);
	taken[AUDIT_NTP_OFFSET] = words[20];
	taken[AUDIT_NTP_FREQ] = words[25];
	taken[AUDIT_NTP_STATUS] = (s32)words[16];	/* (an int in the kernel) */
	taken[AUDIT_NTP_TAI] = words[7] >> 1;
	taken[AUDIT_NTP_TICK] = words[24];
	taken[AUDIT_NTP_ADJUST] = words[27];
	if (is_old && modes & ADJ_SETOFFSET) {	/* (a step comes first, and clears these) */
		taken[AUDIT_NTP_OFFSET] = 0;
		taken[AUDIT_NTP_STATUS] |= STA_UNSYNC;
	}
	for (i = 0; i < AUDIT_NTP_NVALS; i++) {
		if ((i == AUDIT_NTP_ADJUST) != !!(modes & ADJ_ADJTIME))
			continue;
		if (is_old)
			audit_ntp_set_old(audit, i, taken[i]);
		else
			audit_ntp_set_new(audit, i, taken[i]);
	}
}

/* Answers a request at a reading (tkc_adjtimex), and takes what its audit record has. */
static enum tkc_code tk_answer(struct __kernel_timex *txc, int *state, u64 now,
			       struct audit_ntp_data *audit)
{
	struct tkc_timex request = *(struct tkc_timex *)txc;
	u32 modes = txc->modes, status = tkc_ntp_status(&tk_state);
	bool is_audited = modes && !audit_dummy_context();
	enum tkc_code code;

	if (is_audited)
		tk_take(audit, true, modes);
	if (modes & ADJ_FREQUENCY)
		txc->freq += tk_tick_adj;
	code = tkc_adjtimex((struct tkc_timex *)txc, state, &tk_state, now);
	if (is_audited && !code)
		tk_take(audit, false, modes);
	if (!code) {
		txc->freq -= tk_tick_adj;
		tk_answer_pps(&request, status, txc, state);
	}
	return code;
}

/* do_adjtimex - answers a request of adjtimex(2) */
int do_adjtimex(struct __kernel_timex *txc)
{
	int state = timekeeping_validate_timex(txc);
	struct timespec64 moved = { txc->time.tv_sec, txc->time.tv_usec };
	struct audit_ntp_data audit;
	u32 modes = txc->modes;
	enum tkc_code code;
	unsigned long flags;
	bool was_set;
	u64 now;

	BUILD_BUG_ON(sizeof(*txc) != sizeof(struct tkc_timex));
	if (state)
		return state;
	add_device_randomness(txc, sizeof(*txc));
	if (!(modes & ADJ_NANO))
		moved.tv_nsec *= NSEC_PER_USEC;
	audit_ntp_init(&audit);
	now = tk_begin(&flags);
	code = tk_forward(now) ?: tk_answer(txc, &state, now, &audit);
	was_set = tk_end(flags, 0);
	if (!code && modes & ADJ_SETOFFSET)
		audit_tk_injoffset(moved);
	if (!code)
		audit_ntp_log(&audit);
	if (was_set)
		clock_was_set(CLOCK_SET_WALL);
	ntp_notify_cmos_timer();
	return code ? tk_errno(code) : state;
}
