/* SPDX-License-Identifier: MIT OR Apache-2.0 */
/* The discipline of kernel/time/ntp.c, and the clocks of ../c/plain.h that it steers, as
 * hand-written plain C. They get valid numbers only. Lengths are in 2^-32 ns, frequencies in 2^-16
 * ppm, errors and ticks in microseconds. */
#ifndef NTP_H
#define NTP_H

#include "../c/plain.h"

#include <stdbool.h>
#include <stdint.h>

enum modes {
	OFFSET = 0x1,
	FREQUENCY = 0x2,
	MAXERROR = 0x4,
	ESTERROR = 0x8,
	STATUS = 0x10,
	TIMECONST = 0x20,
	TAI = 0x80,
	SETOFFSET = 0x100,
	MICRO = 0x1000,
	NANO = 0x2000,
	TICK = 0x4000,
	ADJTIME = 0x8000,
	READONLY = 0x2000, /* with ADJTIME */
};

enum status {
	STA_PLL = 0x1,
	STA_FLL = 0x8,
	STA_INS = 0x10,
	STA_DEL = 0x20,
	STA_UNSYNC = 0x40,
	STA_FREQHOLD = 0x80,
	STA_CLOCKERR = 0x1000,
	STA_NANO = 0x2000,
	STA_MODE = 0x4000,
	STA_RONLY = 0xff00,
};

enum state { OK, INS, DEL, OOP, WAIT, ERROR };

/* The fields of a request, and of its reply. */
struct request {
	uint32_t modes, status;
	int64_t offset, freq, maxerror, esterror, constant, tick, sec, sub;
};

struct ntp {
	int64_t hz;
	uint32_t status;
	enum state state;
	int64_t due;	/* the second of REALTIME that is a leap, or 0 */
	int64_t offset; /* in each of hz parts of a second */
	int64_t constant, maxerror, esterror;
	int64_t frequency; /* a length */
	int64_t reftime;
	int64_t adjust; /* us */
	int64_t tick;
	int64_t base, length; /* of 1/hz s: without phase, and with that of the present second */
};

void ntp_open(struct ntp *ntp, int64_t hz);
int64_t ntp_second(const struct ntp *ntp); /* the length of the present second */
int ntp_overflow(struct ntp *ntp, int64_t sec); /* what REALTIME leaps by as a second begins */
void ntp_clear(struct ntp *ntp);	       /* REALTIME was set or stepped */
void ntp_request(struct ntp *ntp, const struct request *request, int64_t now);
int64_t ntp_reply(const struct ntp *ntp, struct request *reply); /* all fields but the time */

struct steered {
	struct plain_clock clock;
	struct ntp ntp;
	int64_t freq, tick; /* in force */
	__int128 lag;	    /* in 2^-shift ns by lengths */
	uint64_t last_account; /* the reading that the lag was computed at */
	int64_t next;	    /* the second of REALTIME that begins next */
};

void steered_open(struct steered *steered, const struct plain_clock *clock, int64_t hz);
/* These return false if the clocks refuse the reading. */
bool steered_advance(struct steered *steered, uint64_t reading);
bool steered_update(struct steered *steered, uint64_t reading);
/* Answers a request in its place. Returns the state, or -1 if it is refused. */
int steered_adjtimex(struct steered *steered, uint64_t reading, struct request *request);

#endif
