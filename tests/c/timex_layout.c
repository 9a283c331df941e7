/* SPDX-License-Identifier: MIT OR Apache-2.0 */
/*
 * Compares struct tkc_timex, the modes, the status bits and the states with
 * those of <sys/timex.h>, and passes a struct timex to tkc_adjtimex.
 */
#define _GNU_SOURCE
#include "check.h"

#include <stddef.h>
#include <stdio.h>
#include <stdlib.h>
#include <string.h>
#include <sys/timex.h>

/* A field has the same place and size in both structs. */
#define SAME(ours, theirs) \
	_Static_assert(offsetof(struct tkc_timex, ours) == offsetof(struct timex, theirs) && \
		       sizeof(((struct tkc_timex *)0)->ours) == \
			       sizeof(((struct timex *)0)->theirs), #ours)

_Static_assert(sizeof(struct tkc_timex) == sizeof(struct timex) &&
	       sizeof(struct timex) == 208, "the size");
_Static_assert(_Alignof(struct tkc_timex) == _Alignof(struct timex), "the alignment");
SAME(modes, modes);
SAME(offset, offset);
SAME(freq, freq);
SAME(maxerror, maxerror);
SAME(esterror, esterror);
SAME(status, status);
SAME(constant, constant);
SAME(precision, precision);
SAME(tolerance, tolerance);
SAME(sec, time.tv_sec);
SAME(sub, time.tv_usec);
SAME(tick, tick);
SAME(ppsfreq, ppsfreq);
SAME(jitter, jitter);
SAME(shift, shift);
SAME(stabil, stabil);
SAME(jitcnt, jitcnt);
SAME(calcnt, calcnt);
SAME(errcnt, errcnt);
SAME(stbcnt, stbcnt);
SAME(tai, tai);

_Static_assert((int)TKC_ADJ_OFFSET == ADJ_OFFSET && (int)TKC_ADJ_FREQUENCY == ADJ_FREQUENCY &&
	       (int)TKC_ADJ_MAXERROR == ADJ_MAXERROR && (int)TKC_ADJ_ESTERROR == ADJ_ESTERROR &&
	       (int)TKC_ADJ_STATUS == ADJ_STATUS && (int)TKC_ADJ_TIMECONST == ADJ_TIMECONST &&
	       (int)TKC_ADJ_TAI == ADJ_TAI && (int)TKC_ADJ_SETOFFSET == ADJ_SETOFFSET &&
	       (int)TKC_ADJ_MICRO == ADJ_MICRO && (int)TKC_ADJ_NANO == ADJ_NANO &&
	       (int)TKC_ADJ_TICK == ADJ_TICK, "modes");
_Static_assert((int)(TKC_ADJ_ADJTIME | TKC_ADJ_OFFSET) == ADJ_OFFSET_SINGLESHOT &&
	       (int)(TKC_ADJ_ADJTIME | TKC_ADJ_OFFSET | TKC_ADJ_NANO) == ADJ_OFFSET_SS_READ,
	       "the modes of adjtime");
_Static_assert((int)TKC_STA_PLL == STA_PLL && (int)TKC_STA_FLL == STA_FLL &&
	       (int)TKC_STA_INS == STA_INS && (int)TKC_STA_DEL == STA_DEL &&
	       (int)TKC_STA_UNSYNC == STA_UNSYNC && (int)TKC_STA_FREQHOLD == STA_FREQHOLD &&
	       (int)TKC_STA_CLOCKERR == STA_CLOCKERR && (int)TKC_STA_NANO == STA_NANO &&
	       (int)TKC_STA_MODE == STA_MODE, "status bits");
_Static_assert((int)TKC_STA_PPSFREQ == STA_PPSFREQ && (int)TKC_STA_PPSTIME == STA_PPSTIME &&
	       (int)TKC_STA_PPSSIGNAL == STA_PPSSIGNAL && (int)TKC_STA_PPSJITTER == STA_PPSJITTER &&
	       (int)TKC_STA_PPSWANDER == STA_PPSWANDER && (int)TKC_STA_PPSERROR == STA_PPSERROR,
	       "status bits of a signal");
_Static_assert((int)TKC_TIME_OK == TIME_OK && (int)TKC_TIME_INS == TIME_INS &&
	       (int)TKC_TIME_DEL == TIME_DEL && (int)TKC_TIME_OOP == TIME_OOP &&
	       (int)TKC_TIME_WAIT == TIME_WAIT && (int)TKC_TIME_ERROR == TIME_ERROR, "states");

static struct tkc_ntp opened(void)
{
	struct tkc_counter counter;
	struct tkc_ntp ntp;

	check(!tkc_counter_from_hz(&counter, 64, 1000000000, 600));
	check(!tkc_ntp_open(&ntp, &counter, 0, 1700000000, 500000000, 250));
	return ntp;
}

int main(void)
{
	struct tkc_ntp ntp = opened();
	struct timex tx;
	uint32_t state;

	memset(&tx, 0x5a, sizeof(tx));
	tx.modes = ADJ_OFFSET | ADJ_MAXERROR | ADJ_STATUS | ADJ_TIMECONST | ADJ_NANO;
	tx.offset = 100000000;
	tx.maxerror = 0;
	tx.status = STA_PLL;
	tx.constant = 6;
	check(!tkc_adjtimex((struct tkc_timex *)&tx, &state, &ntp, 0));
	check(state == TIME_OK && tx.offset == 100000000 && tx.maxerror == 0);
	check(tx.status == (STA_PLL | STA_NANO) && tx.constant == 6 && tx.tick == 10000);
	check(tx.time.tv_sec == 1700000000 && tx.time.tv_usec == 500000000);
	check(tx.precision == 1 && tx.tolerance == 32768000 && tx.tai == 0);
	check(tx.freq == 0 && tx.ppsfreq == 0 && tx.shift == 0 && tx.stbcnt == 0);
	puts("timex_layout: struct tkc_timex is laid out as struct timex");
	return EXIT_SUCCESS;
}
