/* SPDX-License-Identifier: MIT OR Apache-2.0 */
/* The discipline: requests, and the seconds of REALTIME that begin. */
#include "ntp.h"

static const int64_t ONE = (int64_t)1 << 32, DAY = 86400;
static const int64_t PPM16 = 65536000; /* 2^-16 ppm of a second, as a length */
static const int64_t MOST = 500000 * ((int64_t)1 << 32);
static const int64_t MOST_ERROR = 16000000;

static int64_t held(int64_t number, int64_t least, int64_t most)
{
	return number < least ? least : number > most ? most : number;
}

int64_t ntp_second(const struct ntp *ntp)
{
	return ntp->length * ntp->hz;
}

static void update_frequency(struct ntp *ntp)
{
	int64_t base = (ntp->tick * 100000 * ONE + ntp->frequency) / ntp->hz;

	ntp->length += base - ntp->base;
	ntp->base = base;
}

void ntp_clear(struct ntp *ntp)
{
	ntp->adjust = ntp->offset = ntp->due = 0;
	ntp->status |= STA_UNSYNC;
	ntp->maxerror = ntp->esterror = MOST_ERROR;
	update_frequency(ntp);
	ntp->length = ntp->base;
}

void ntp_open(struct ntp *ntp, int64_t hz)
{
	*ntp = (struct ntp){ .hz = hz, .constant = 2, .tick = 10000 };
	ntp_clear(ntp);
}

static int leap(struct ntp *ntp, int64_t sec)
{
	switch (ntp->state) {
	case OK:
		if (ntp->status & STA_INS) {
			ntp->state = INS;
			ntp->due = sec + DAY - sec % DAY;
		} else if (ntp->status & STA_DEL) {
			ntp->state = DEL;
			ntp->due = sec + DAY - (sec + 1) % DAY;
		}
		return 0;
	case INS:
	case DEL:
		if (!(ntp->status & (ntp->state == INS ? STA_INS : STA_DEL))) {
			ntp->state = OK;
			ntp->due = 0;
		} else if (sec == ntp->due && ntp->state == INS) {
			ntp->state = OOP;
			return -1;
		} else if (sec == ntp->due) {
			ntp->state = WAIT;
			ntp->due = 0;
			return 1;
		}
		return 0;
	case OOP:
		ntp->state = WAIT;
		ntp->due = 0;
		return 0;
	default:
		if (!(ntp->status & (STA_INS | STA_DEL)))
			ntp->state = OK;
		return 0;
	}
}

int ntp_overflow(struct ntp *ntp, int64_t sec)
{
	int by = leap(ntp, sec);
	int64_t part = ntp->offset / ((int64_t)1 << (2 + ntp->constant));

	ntp->maxerror += 500;
	if (ntp->maxerror > MOST_ERROR) {
		ntp->maxerror = MOST_ERROR;
		ntp->status |= STA_UNSYNC;
	}
	ntp->offset -= part;
	ntp->length = ntp->base + part;
	if (ntp->adjust > 500 || ntp->adjust < -500) {
		int64_t sign = ntp->adjust > 0 ? 1 : -1;

		ntp->adjust -= sign * 500;
		ntp->length += sign * (MOST / ntp->hz);
	} else {
		ntp->length += ntp->adjust * 1000 / ntp->hz * ONE;
		ntp->adjust = 0;
	}
	return by;
}

static void take_status(struct ntp *ntp, uint32_t status, int64_t now)
{
	if (ntp->status & STA_PLL && !(status & STA_PLL)) {
		ntp->state = OK;
		ntp->status = STA_UNSYNC;
		ntp->due = 0;
	}
	if (!(ntp->status & STA_PLL) && status & STA_PLL)
		ntp->reftime = now;
	ntp->status = (ntp->status & STA_RONLY) | (status & ~(uint32_t)STA_RONLY);
}

static void take_offset(struct ntp *ntp, int64_t offset, int64_t now)
{
	int64_t secs = now - ntp->reftime, change = 0, span = 8 << ntp->constant;

	if (!(ntp->status & STA_PLL))
		return;
	if (!(ntp->status & STA_NANO))
		offset = held(offset, -1000000, 1000000) * 1000;
	offset = held(offset, -500000000, 500000000);
	if (secs < 0 || ntp->status & STA_FREQHOLD)
		secs = 0;
	ntp->reftime = now;
	ntp->status &= ~(uint32_t)STA_MODE;
	if (secs >= 256 && (ntp->status & STA_FLL || secs > 2048)) {
		ntp->status |= STA_MODE;
		change = offset * ((int64_t)1 << 30) / secs;
	}
	secs = secs < span ? secs : span;
	change += offset * secs * ((int64_t)1 << (24 - 2 * ntp->constant));
	ntp->frequency = held(ntp->frequency + change, -MOST, MOST);
	ntp->offset = offset * ONE / ntp->hz;
}

void ntp_request(struct ntp *ntp, const struct request *request, int64_t now)
{
	uint32_t modes = request->modes;

	if (modes & STATUS)
		take_status(ntp, request->status, now);
	if (modes & NANO)
		ntp->status |= STA_NANO;
	if (modes & MICRO)
		ntp->status &= ~(uint32_t)STA_NANO;
	if (modes & FREQUENCY)
		ntp->frequency = held(request->freq, -MOST / PPM16, MOST / PPM16) * PPM16;
	if (modes & MAXERROR)
		ntp->maxerror = held(request->maxerror, 0, MOST_ERROR);
	if (modes & ESTERROR)
		ntp->esterror = held(request->esterror, 0, MOST_ERROR);
	if (modes & TIMECONST)
		ntp->constant = held(held(request->constant, 0, 10) +
				     (ntp->status & STA_NANO ? 0 : 4), 0, 10);
	if (modes & OFFSET)
		take_offset(ntp, request->offset, now);
	if (modes & TICK)
		ntp->tick = request->tick;
	if (modes & (TICK | FREQUENCY | OFFSET))
		update_frequency(ntp);
}

int64_t ntp_reply(const struct ntp *ntp, struct request *reply)
{
	reply->offset = ntp->offset * ntp->hz / ONE;
	if (!(ntp->status & STA_NANO))
		reply->offset /= 1000;
	reply->freq = (ntp->frequency >> 19) * 34359739 / ONE;
	reply->maxerror = ntp->maxerror;
	reply->esterror = ntp->esterror;
	reply->status = ntp->status;
	reply->constant = ntp->constant;
	reply->tick = ntp->tick;
	return ntp->status & (STA_UNSYNC | STA_CLOCKERR) ? ERROR : ntp->state;
}
