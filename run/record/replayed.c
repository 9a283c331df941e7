/* SPDX-License-Identifier: MIT OR Apache-2.0 */
/*
 * replayed.c - the clocks that tkcore has after the records of a script so far. The library's
 * calls leave the same clocks, and count the same commands.
 */
#include "replayed.h"

static struct tkc_timex request_of(const struct record_row *row)
{
	struct asked_words asked;

	rows_asked(row, &asked);
	return (struct tkc_timex){
		.modes = (uint32_t)asked.modes, .offset = asked.offset,
		.freq = asked.freq, .maxerror = asked.maxerror,
		.esterror = asked.esterror, .status = (uint32_t)asked.status,
		.constant = asked.constant, .tick = asked.tick,
		.sec = asked.sec, .sub = asked.sub,
	};
}

/* Makes the call of a row. tkcore makes a refused one too, since the seconds up to its reading may
 * have begun. A read lets them begin. */
static enum tkc_code follow_steered(struct tkc_ntp *ntp, const struct record_row *row)
{
	struct tkc_timex request;
	uint32_t state;

	if (is_command(row) && !is_request(row))
		return tkc_ntp_apply(ntp, row->reading, row->kind, row->number,
				     row->nsec);
	if (!is_request(row))
		return tkc_ntp_advance(ntp, row->reading);
	request = request_of(row);
	return tkc_adjtimex(&request, &state, ntp, row->reading);
}

/* If clocks without a discipline refuse a command, tkcore does too, and --check
 * reports the difference. */
static enum tkc_code follow_plain(struct tkc_clock *clock, const struct record_row *row)
{
	if (is_request(row) || !is_accepted(row))
		return TKC_OK;
	return tkc_clock_apply(clock, row->reading, row->kind, row->number,
			       row->nsec);
}

void replayed_follow(struct replayed *clocks, const struct record_row *row)
{
	enum tkc_code code = clocks->is_steered ?
				     follow_steered(&clocks->ntp, row) :
				     follow_plain(&clocks->clock, row);
	(void)code;
}

void replayed_open(struct replayed *clocks, const struct plan *plan,
		   bool is_steered)
{
	*clocks = (struct replayed){ .is_steered = is_steered,
				     .ntp = plan->clocks };
	plan_open_clock(plan, &clocks->clock);
}

void replayed_words(const struct replayed *clocks,
		    uint64_t words[TKC_NTP_SAVED_WORDS])
{
	if (clocks->is_steered)
		tkc_ntp_save(words, &clocks->ntp);
	else
		tkc_clock_save(words, &clocks->clock);
}
