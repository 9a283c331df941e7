/* SPDX-License-Identifier: MIT OR Apache-2.0 */
/* For a hypervisor: exports a snapshot to a guest's clocks. MONOTONIC becomes pvclock_vcpu_time_info
 * (arch/x86/include/asm/pvclock-abi.h), and TAI vmclock_abi (include/uapi/linux/vmclock-abi.h).
 * Both describe a line over a counter of 64 bits, such as the TSC, and are made from a tkc_line. It
 * compares a million times that a guest computes with the library's, and prints the least and the
 * greatest difference. */
#include <stdio.h>
#include <tkcore.h>

#define READINGS 1000000
#define NSEC UINT64_C(1000000000)

__extension__ typedef unsigned __int128 u128;

/* The fields that a guest computes with. The others of the two structs are 0 here. */
struct pvclock {
	uint64_t tsc_timestamp;
	uint64_t system_time; /* ns */
	uint32_t tsc_to_system_mul;
	int8_t tsc_shift;
};

struct vmclock {
	uint64_t counter_value;
	uint64_t counter_period_frac_sec; /* 2^-(64 + counter_period_shift) s */
	uint8_t counter_period_shift;
	uint64_t time_sec;
	uint64_t time_frac_sec; /* 2^-64 s */
};

/* MONOTONIC. The guest computes system_time + ((delta << tsc_shift) * mul >> 32). The part of
 * MONOTONIC below a nanosecond has no field. */
static struct pvclock pvclock_of(const struct tkc_line *line)
{
	struct pvclock made = {
		.tsc_timestamp = line->last,
		.system_time = line->sec * NSEC + (line->frac >> line->shift),
		.tsc_to_system_mul = line->mult,
		.tsc_shift = (int8_t)(32 - line->shift),
	};

	/* as few bits of delta as possible are shifted out at its top */
	while (made.tsc_shift > 0 && made.tsc_to_system_mul < UINT32_C(1) << 31) {
		made.tsc_to_system_mul <<= 1;
		made.tsc_shift--;
	}
	return made;
}

static uint64_t pvclock_read(const struct pvclock *clock, uint64_t tsc)
{
	uint64_t delta = (tsc - clock->tsc_timestamp) << clock->tsc_shift;

	return clock->system_time + (uint64_t)((u128)delta * clock->tsc_to_system_mul >> 32);
}

/* TAI. A line's frac and mult are in 2^-shift ns, and the guest's fields in 2^-64 s and less. */
static struct vmclock vmclock_of(const struct tkc_line *line)
{
	uint64_t second = NSEC << line->shift; /* in 2^-shift ns */
	struct vmclock made = {
		.counter_value = line->last,
		.time_sec = line->sec,
		.time_frac_sec = (uint64_t)(((u128)line->frac << 64) / second),
	};
	u128 period = ((u128)line->mult << 64) / second;

	/* as many bits of the period as 64 bits take */
	while (period < (u128)1 << 63 && made.counter_period_shift < 31) {
		made.counter_period_shift++;
		period = ((u128)line->mult << (64 + made.counter_period_shift)) / second;
	}
	made.counter_period_frac_sec = (uint64_t)period;
	return made;
}

static uint64_t vmclock_read(const struct vmclock *clock, uint64_t counter)
{
	u128 product = (u128)(counter - clock->counter_value) * clock->counter_period_frac_sec;
	u128 time = (product >> clock->counter_period_shift) + clock->time_frac_sec;
	uint64_t frac = (uint64_t)time;

	return (clock->time_sec + (uint64_t)(time >> 64)) * NSEC + (uint64_t)((u128)frac * NSEC >> 64);
}

struct range {
	int64_t least, greatest;
};

static void add(struct range *range, uint64_t guest, const struct tkc_time *time)
{
	int64_t difference = (int64_t)(guest - ((uint64_t)time->sec * NSEC + time->nsec));

	if (difference < range->least)
		range->least = difference;
	if (difference > range->greatest)
		range->greatest = difference;
}

int main(void)
{
	struct tkc_counter counter;
	struct tkc_clock clock;
	struct tkc_snapshot snapshot;
	struct tkc_line monotonic_line, tai_line;
	struct range pv = { INT64_MAX, INT64_MIN }, vm = pv;
	uint64_t random = 1, start = UINT64_C(5000000000);

	/* a TSC of 2.5 GHz that runs 37.5 ppm fast, five minutes after the opening */
	if (tkc_counter_from_hz(&counter, 64, UINT64_C(2500000000), 600) ||
	    tkc_clock_open(&clock, &counter, start, INT64_C(1700000000), 123456789) ||
	    tkc_clock_set_tai_offset(&clock, start + 1, 37) ||
	    tkc_clock_set_frequency(&clock, start + 777, -2457600) ||
	    tkc_clock_update(&clock, start + UINT64_C(750000000123)))
		return 1;
	tkc_clock_snapshot(&snapshot, &clock);
	if (tkc_snapshot_line(&monotonic_line, &snapshot, TKC_CLOCK_MONOTONIC) ||
	    tkc_snapshot_line(&tai_line, &snapshot, TKC_CLOCK_TAI))
		return 1;

	struct pvclock pvclock = pvclock_of(&monotonic_line);
	struct vmclock vmclock = vmclock_of(&tai_line);

	for (int k = 0; k < READINGS; k++) {
		struct tkc_time monotonic, tai;

		/* readings up to 7 minutes after the snapshot */
		random = random * UINT64_C(6364136223846793005) + UINT64_C(1442695040888963407);
		uint64_t reading = monotonic_line.last + (random >> 24);

		if (tkc_snapshot_get(&monotonic, &snapshot, TKC_CLOCK_MONOTONIC, reading) ||
		    tkc_snapshot_get(&tai, &snapshot, TKC_CLOCK_TAI, reading))
			return 1;
		add(&pv, pvclock_read(&pvclock, reading), &monotonic);
		add(&vm, vmclock_read(&vmclock, reading), &tai);
	}
	printf("pvclock: %lld to %lld ns from MONOTONIC\n", (long long)pv.least,
	       (long long)pv.greatest);
	printf("vmclock: %lld to %lld ns from TAI\n", (long long)vm.least, (long long)vm.greatest);
	return pv.least < -2 || pv.greatest > 0 || vm.least < -2 || vm.greatest > 0;
}
