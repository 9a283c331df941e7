/* SPDX-License-Identifier: MIT OR Apache-2.0 */
/*
 * Makes the calls on a tkc_ntp that records ask for, and writes what they return
 * as lines. Fields are separated by commas, and numbers may be hexadecimal:
 *
 *	open,BITS,MULT,SHIFT,READING,SEC,NSEC,PARTS	open
 *	openhz,BITS,HZ,MAXSEC,READING,SEC,NSEC,PARTS	open
 *	openat,BITS,MULT,SHIFT,READING,SEC,NSEC,PARTS,
 *		UPTIME_SEC,UPTIME_NSEC			open
 *	advance,READING					ok
 *	late,READING					ok
 *	tick,READING					tick,CHANGED
 *	apply,READING,COMMAND,NUMBER,NSEC		ok
 *	counter,READING,BITS,MULT,SHIFT,FIRST		ok
 *	adjtimex,READING,MODES,OFFSET,FREQ,MAXERROR,ESTERROR,STATUS,CONSTANT,
 *		TICK,SEC,SUB				adj,STATE,SEC.SUB,OFFSET,FREQ,
 *							MAXERROR,ESTERROR,STATUS,
 *							CONSTANT,TICK,TAI
 *	get,CLOCK,READING				at,SEC.NSEC
 *	signal						signal
 *	pps,READING,NSEC,RAW				ok
 *	next						next,READING
 *	asked						asked,BY,SECOND,STATUS,FREQ,TICK
 *	front						front,COMMANDS
 *
 * PARTS is the discipline's hz. `late` advances with tkc_ntp_advance_late, and
 * `get` advances first with tkc_ntp_advance. BY and SECOND are those of
 * tkc_ntp_leap, and SECOND is 0 if no leap is coming. CHANGED is that of
 * tkc_ntp_tick. `counter` changes the counter, to the reading FIRST. A call
 * that fails is answered `no,CODE`.
 *
 * From `signal` up to the next opening, the clocks have a signal of a pulse per
 * second, without a pulse at first. Each record then begins the seconds up to its
 * reading before all else, unless it resumes or the clocks are asleep. An answer
 * `adj` ends with the fields of the signal, and each answer with its words:
 *
 *	pps,STATE,PPSFREQ,JITTER,SHIFT,STABIL,JITCNT,CALCNT,ERRCNT,STBCNT
 *	signal,VALID,SHIFT,JITTER,STABIL,CORRECTION,BALANCE,FREQUENCY,START,CALCNT,
 *		JITCNT,STBCNT,ERRCNT
 */
#ifndef NTP_RECORDS_H
#define NTP_RECORDS_H

#include <stdbool.h>
#include <tkcore.h>

enum { LINE_SIZE = 1024, FIELDS = 12 };

/* The clocks that records are about. */
struct session {
	struct tkc_counter counter;
	struct tkc_ntp ntp;
	struct tkc_pps pps;
	bool has_signal;
};

/* Answers a record, without an end of line. A call that fails must write
 * nothing. */
void answer(struct session *session, const char *record, char line[LINE_SIZE]);

#endif
