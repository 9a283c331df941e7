/* SPDX-License-Identifier: MIT OR Apache-2.0 */
/* Clocks that a discipline steers: each second of REALTIME begins at its exact reading, and its
 * length becomes a tick and a frequency. */
#include "ntp.h"

typedef unsigned __int128 u128;

static const int64_t NANOS = 1000000000, ONE = (int64_t)1 << 32;
static const int64_t PPM16 = 65536000, TICK_RATE = 6553600, MOST_FREQ = 32768000;
static const int64_t LEAST_TICK = 9000, MOST_TICK = 11000, MOST_TAI = 100000;

static int64_t held(int64_t number, int64_t least, int64_t most)
{
	return number < least ? least : number > most ? most : number;
}

static __int128 quotient(__int128 number, __int128 divisor)
{
	__int128 whole = number / divisor;

	return number % divisor < 0 ? whole - 1 : whole;
}

static uint32_t mult_at(const struct plain_clock *clock, int64_t freq, int64_t tick)
{
	uint64_t rate = (uint64_t)(tick * TICK_RATE + freq);

	return (uint32_t)((u128)clock->raw_mult * rate / 65536000000);
}

static uint64_t realtime(const struct plain_clock *clock, uint64_t reading)
{
	struct plain_time time;

	plain_get(&time, clock, reading);
	return (uint64_t)time.sec * (uint64_t)NANOS + time.nsec + clock->real_offset;
}

/* What REALTIME has still to gain after the last reading until it is `sec`, in 2^-shift ns. */
static __int128 missing_to(const struct plain_clock *clock, int64_t sec)
{
	int64_t nanos = sec * NANOS - (int64_t)clock->real_offset - (int64_t)clock->sec * NANOS;

	return ((__int128)nanos << clock->shift) - (__int128)clock->frac;
}

/* The first reading at which this much is gained. */
static uint64_t reading_of(const struct plain_clock *clock, __int128 missing)
{
	uint64_t cycles = 0;

	if (missing >> 63)
		cycles = missing < 0 ? 0 : (uint64_t)((missing + clock->mult - 1) / clock->mult);
	else
		cycles = ((uint64_t)missing + clock->mult - 1) / clock->mult;
	return (clock->last + cycles) & clock->mask;
}

/* Adds to the lag what the cycles since the last account should have added, minus what they did. */
static void account(struct steered *steered, uint64_t reading)
{
	const struct plain_clock *clock = &steered->clock;
	uint64_t cycles = (reading - steered->last_account) & clock->mask;
	__int128 due = (__int128)clock->raw_mult * ntp_second(&steered->ntp);
	__int128 done = (__int128)clock->mult * (NANOS * ONE);
	__int128 most = (__int128)(NANOS << clock->shift) * (NANOS * ONE / 2);
	__int128 lag = steered->lag + (due - done) * (__int128)cycles;

	steered->lag = lag > most ? most : lag < -most ? -most : lag;
	steered->last_account = reading;
}

/* Sets the rate that the present second needs, unless the multiplier is the same. */
static void steer(struct steered *steered, uint64_t reading)
{
	struct plain_clock *clock = &steered->clock;
	int64_t most = 500000 * ONE + 2 * NANOS * ONE / clock->raw_mult;
	__int128 late = quotient(steered->lag, (__int128)NANOS << clock->shift);
	int64_t more = late > most ? most : late < -most ? -most : (int64_t)late;
	int64_t rate = held((ntp_second(&steered->ntp) + more) / PPM16,
			    LEAST_TICK * TICK_RATE - MOST_FREQ, MOST_TICK * TICK_RATE + MOST_FREQ);
	int64_t tick = steered->ntp.tick, freq = rate - tick * TICK_RATE;
	uint32_t mult;

	if (freq < -MOST_FREQ || freq > MOST_FREQ) {
		tick = held((rate + TICK_RATE / 2) / TICK_RATE, LEAST_TICK, MOST_TICK);
		freq = rate - tick * TICK_RATE;
	}
	mult = mult_at(clock, freq, tick);
	if (mult == clock->mult)
		return;
	plain_update(clock, reading);
	clock->mult = mult;
	steered->freq = freq;
	steered->tick = tick;
}

static bool is_refused(const struct steered *steered, uint64_t reading)
{
	const struct plain_clock *clock = &steered->clock;
	uint64_t half = clock->mask >> 1;

	return reading > clock->mask || ((reading - clock->last) & clock->mask) > half ||
	       ((reading - steered->last_account) & clock->mask) > half;
}

void steered_open(struct steered *steered, const struct plain_clock *clock, int64_t hz)
{
	*steered = (struct steered){ .clock = *clock, .tick = 10000, .last_account = clock->last };
	ntp_open(&steered->ntp, hz);
	steered->next = (int64_t)(realtime(clock, clock->last) / (uint64_t)NANOS) + 1;
}

static void begin(struct steered *steered, uint64_t reading)
{
	struct plain_clock *clock = &steered->clock;
	int leap;

	account(steered, reading);
	leap = ntp_overflow(&steered->ntp, steered->next);
	steered->next += 1 + leap;
	if (leap) {
		plain_update(clock, reading);
		clock->real_offset += (uint64_t)(leap * NANOS);
		if ((int64_t)clock->tai - leap >= 0 && (int64_t)clock->tai - leap <= MOST_TAI)
			clock->tai -= (uint64_t)leap;
	}
	steer(steered, reading);
}

bool steered_advance(struct steered *steered, uint64_t reading)
{
	const struct plain_clock *clock = &steered->clock;

	if (is_refused(steered, reading))
		return false;
	for (;;) {
		uint64_t gap = (reading - clock->last) & clock->mask;
		__int128 missing = missing_to(clock, steered->next);

		if (missing > (__int128)((u128)gap * clock->mult))
			return true;
		begin(steered, reading_of(clock, missing));
	}
}

bool steered_update(struct steered *steered, uint64_t reading)
{
	if (!steered_advance(steered, reading))
		return false;
	account(steered, reading);
	return plain_update(&steered->clock, reading) == PLAIN_OK;
}

static void step(struct steered *steered, uint64_t reading, int64_t nanos)
{
	struct plain_clock *clock = &steered->clock;

	plain_update(clock, reading);
	clock->real_offset += (uint64_t)nanos;
	ntp_clear(&steered->ntp);
	steered->lag = 0;
	steered->last_account = reading;
	steered->next = (int64_t)(realtime(clock, reading) / (uint64_t)NANOS) + 1;
	steer(steered, reading);
}

static void take_modes(struct steered *steered, uint64_t reading, const struct request *request,
		       int64_t now)
{
	struct plain_clock *clock = &steered->clock;

	account(steered, reading);
	if (request->modes & TAI && request->constant >= 0 && request->constant <= MOST_TAI &&
	    request->constant != (int64_t)clock->tai) {
		plain_update(clock, reading);
		clock->tai = (uint64_t)request->constant;
	}
	ntp_request(&steered->ntp, request, now);
	if (request->modes & (OFFSET | FREQUENCY | TICK))
		steer(steered, reading);
}

/* timekeeping_validate_timex */
static bool is_faulty(const struct request *request)
{
	uint32_t modes = request->modes;

	if (modes & ADJTIME ? !(modes & OFFSET) :
			      modes & TICK && (request->tick < LEAST_TICK || request->tick > MOST_TICK))
		return true;
	if (modes & SETOFFSET &&
	    (request->sub < 0 || request->sub >= (modes & NANO ? NANOS : NANOS / 1000)))
		return true;
	return modes & FREQUENCY &&
	       (request->freq < -INT64_MAX / PPM16 || request->freq > INT64_MAX / PPM16);
}

int steered_adjtimex(struct steered *steered, uint64_t reading, struct request *request)
{
	int64_t adjust = steered->ntp.adjust;
	uint32_t modes = request->modes;
	uint64_t real;
	int state;

	if (is_faulty(request) || !steered_advance(steered, reading))
		return -1;
	if (modes & SETOFFSET)
		step(steered, reading,
		     request->sec * NANOS + request->sub * (modes & NANO ? 1 : 1000));
	real = realtime(&steered->clock, reading);
	if (modes & ADJTIME) {
		adjust = steered->ntp.adjust;
		if (!(modes & READONLY))
			steered->ntp.adjust = request->offset;
	} else if (modes) {
		take_modes(steered, reading, request, (int64_t)(real / (uint64_t)NANOS));
	}
	state = (int)ntp_reply(&steered->ntp, request);
	if (modes & ADJTIME)
		request->offset = adjust;
	request->sec = (int64_t)(real / (uint64_t)NANOS);
	request->sub = (int64_t)(real % (uint64_t)NANOS);
	if (!(steered->ntp.status & STA_NANO))
		request->sub /= 1000;
	return state;
}
