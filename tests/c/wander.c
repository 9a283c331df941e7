/* SPDX-License-Identifier: MIT OR Apache-2.0 */
/*
 * Prints how far MONOTONIC of steered clocks is from its own line at each shift of a counter's rate:
 * the table of docs/C.md, "Choosing maxsec".
 *
 *	gcc -O2 -Idist/include tests/c/wander.c dist/lib/libtkcore.a -lm
 *
 * A frequency is set 40 times, 0.6 to 0.7 ppm to either side, as the kernel's selftest freq-step does.
 * After each, the clocks are advanced and updated every 4 ms, for 10 s. MONOTONIC is read 100 times,
 * and compared with the line that is fitted to these times.
 */
#include <inttypes.h>
#include <math.h>
#include <stdio.h>
#include <stdlib.h>
#include <tkcore.h>

enum { SETTINGS = 40, TICKS = 2500, EACH = 25, SAMPLES = TICKS / EACH };

__extension__ typedef unsigned __int128 u128;

static void must(uint32_t code)
{
	if (!code)
		return;
	fprintf(stderr, "wander: %s\n", tkc_code_name(code));
	exit(EXIT_FAILURE);
}

/* Returns MONOTONIC minus the time of a perfect counter, in ns. */
static double error_at(const struct tkc_ntp *ntp, uint64_t reading, uint64_t hz)
{
	struct tkc_snapshot snapshot;
	struct tkc_time time;

	tkc_ntp_snapshot(&snapshot, ntp);
	must(tkc_snapshot_get(&time, &snapshot, TKC_CLOCK_MONOTONIC, reading));
	return (double)(time.sec * 1000000000 + time.nsec -
			(int64_t)((u128)reading * 1000000000 / hz));
}

/* Returns the greatest distance of the samples from the line fitted to them. */
static double distance(const double samples[SAMPLES])
{
	double middle = 0, slope = 0, squares = 0, greatest = 0;

	for (int i = 0; i < SAMPLES; i++) {
		double place = i - (SAMPLES - 1) / 2.0;

		middle += samples[i] / SAMPLES;
		slope += place * samples[i];
		squares += place * place;
	}
	for (int i = 0; i < SAMPLES; i++) {
		double line = middle + slope / squares * (i - (SAMPLES - 1) / 2.0);

		greatest = fmax(greatest, fabs(samples[i] - line));
	}
	return greatest;
}

/* Returns how far MONOTONIC is from its line in the 10 s after a frequency is set. */
static double after_setting(struct tkc_ntp *ntp, uint64_t *reading, uint64_t hz, int64_t frequency)
{
	double samples[SAMPLES];

	must(tkc_ntp_advance_late(ntp, *reading));
	must(tkc_ntp_apply(ntp, *reading, TKC_CMD_FREQ, frequency, 0));
	for (int tick = 1; tick <= TICKS; tick++) {
		*reading += hz / 250;
		must(tkc_ntp_advance_late(ntp, *reading));
		must(tkc_ntp_apply(ntp, *reading, TKC_CMD_UPDATE, 0, 0));
		if (tick % EACH == 0)
			samples[tick / EACH - 1] = error_at(ntp, *reading, hz);
	}
	return distance(samples);
}

static double wander(const struct tkc_counter *counter, uint64_t hz)
{
	struct tkc_ntp ntp;
	uint64_t reading = 0;
	double greatest = 0;

	must(tkc_ntp_open(&ntp, counter, 0, 1700000000, 0, 250));
	for (int64_t i = 0; i < SETTINGS; i++) {
		int64_t frequency = (40960 + 137 * i) * (i % 2 ? -1 : 1);

		greatest = fmax(greatest, after_setting(&ntp, &reading, hz, frequency));
	}
	return greatest;
}

int main(void)
{
	static const uint64_t rates[] = { 1000000000, 2700000000, 4491000000 };

	puts("rate mult shift, a unit in ppb, wanders by ns, exact for s");
	for (int i = 0; i < 3; i++) {
		for (uint32_t shift = 22; shift <= 32; shift++) {
			uint64_t hz = rates[i], mult = ((1000000000ULL << shift) + hz / 2) / hz;
			uint64_t most = mult + mult * 11 / 100;
			struct tkc_counter counter;

			if (most >> 32)
				break;
			must(tkc_counter_new(&counter, 64, (uint32_t)mult, shift));
			printf("%" PRIu64 " %" PRIu64 " %" PRIu32 " %.3g %.1f %.0f\n", hz, mult,
			       shift, 1e9 / (double)mult, wander(&counter, hz),
			       floor((ldexp(1, 64) - ldexp(1e9, (int)shift)) /
				     ((double)hz * (double)most)));
		}
	}
	return EXIT_SUCCESS;
}
