// SPDX-License-Identifier: GPL-2.0
/*
 * Does a guest of KVM get this kernel's times? It runs a guest of 30 instructions, while the clocks
 * of the host are set and slewed, its clocksource changes, and it sleeps. The guest copies its page
 * of KVM's clock, which counts MONOTONIC_RAW, and has KVM write the time of REALTIME at a TSC
 * (KVM_HC_CLOCK_PAIRING) and the REALTIME at which KVM's clock began (MSR_KVM_WALL_CLOCK_NEW). These
 * times are compared with the host's clocks, interpolated between a read before and one after.
 *
 * It ends with status 1 if a time is off by more than its limit, or if there is no KVM.
 */
#include <errno.h>
#include <stdint.h>
#include <stdio.h>
#include <stdlib.h>
#include <string.h>
#include <sys/timex.h>
#include <time.h>
#include <unistd.h>
#include "pvclock_guest.h"

#define SECOND 1000000000LL
#define RUNS 10			/* of the guest after each change, 0.2 s apart */

#define NEAR 5000	/* ns that a time may be off: a read of the host's clocks takes as long */

/*
 * Returns the ns that KVM's clock may be off after some time: 100 ppm of it. Both the kernel and KVM
 * measure the rate of the TSC, KVM less exactly.
 */
static int64_t limit_after(int64_t nanos)
{
	return NEAR + nanos / 10000;
}

static uint64_t read_tsc(void)
{
	uint32_t low, high;

	asm volatile("lfence\n\trdtsc\n\tlfence" : "=a"(low), "=d"(high));
	return (uint64_t)high << 32 | low;
}

/* The host's clocks, in ns, at readings of its TSC. */
struct moment {
	uint64_t real_tsc, raw_tsc;
	int64_t real, raw;
};

/* Reads a clock, and the TSC in the middle of the read: the shortest of ten. */
static int64_t read_clock(clockid_t clock, uint64_t *tsc)
{
	uint64_t shortest = UINT64_MAX;
	int64_t found = 0;

	for (int i = 0; i < 10; i++) {
		uint64_t before = read_tsc(), took;
		struct timespec time;

		clock_gettime(clock, &time);
		took = read_tsc() - before;
		if (took < shortest) {
			shortest = took;
			*tsc = before + took / 2;
			found = time.tv_sec * SECOND + time.tv_nsec;
		}
	}
	return found;
}

static struct moment read_clocks(void)
{
	struct moment now;

	now.raw = read_clock(CLOCK_MONOTONIC_RAW, &now.raw_tsc);
	now.real = read_clock(CLOCK_REALTIME, &now.real_tsc);
	return now;
}

/* Returns a clock's time at `tsc`, of its times at two readings. */
static int64_t between(uint64_t tsc, uint64_t tsc0, int64_t time0, uint64_t tsc1, int64_t time1)
{
	return time0 + (int64_t)((__int128)(int64_t)(tsc - tsc0) * (time1 - time0) /
				 (int64_t)(tsc1 - tsc0));
}

/* Returns the time of KVM's clock at a TSC of the guest (__pvclock_read_cycles). */
static int64_t page_time(const struct page *page, uint64_t tsc)
{
	uint64_t delta = tsc - page->tsc;

	delta = page->shift < 0 ? delta >> -page->shift : delta << page->shift;
	return page->nanos + (uint64_t)((unsigned __int128)delta * page->mult >> 32);
}

/* The worst differences of a change, in ns, and how many were compared in all. */
static long long worst_page, worst_pair, worst_start, pages, stable, pairs, faults;
static int64_t first_ahead;	/* KVM's clock minus MONOTONIC_RAW, at the guest's first run */
static int is_tsc = 1;		/* whether the TSC is the clocksource */

/* Counts a difference of more than a limit as a fault. */
static void count(long long *worst, int64_t difference, int64_t limit)
{
	difference = llabs(difference);
	if (difference > *worst)
		*worst = difference;
	faults += difference > limit;
}

/* Tests that KVM's clock started when the guest was made, in a call of some length. */
static void compare_start(int64_t ahead, int64_t limit)
{
	faults += -ahead < made_after - limit || -ahead > made_before + limit;
	first_ahead = ahead;
	is_new = 0;
}

/* Compares what the guest has found with the host's clocks. */
static void compare(const struct moment *a, const struct moment *b)
{
	uint64_t tsc = shared->tsc - tsc_offset, pair = shared->pair.tsc - tsc_offset;
	int64_t time = page_time(&shared->copy, shared->tsc), limit = limit_after(time);
	int64_t ahead = time - between(tsc, a->raw_tsc, a->raw, b->raw_tsc, b->raw);
	int64_t real = between(tsc, a->real_tsc, a->real, b->real_tsc, b->real);

	if (is_new)
		compare_start(ahead, limit);
	pages++;
	stable += shared->copy.flags & 1;
	count(&worst_page, ahead - first_ahead, limit);
	count(&worst_start, shared->wall_sec * SECOND + shared->wall_nsec + time - real,
	      is_tsc ? NEAR : limit);
	faults += shared->refusal != (is_tsc ? 0 : -EOPNOTSUPP);
	if (shared->refusal)
		return;
	pairs++;
	count(&worst_pair, shared->pair.sec * SECOND + shared->pair.nsec -
	      between(pair, a->real_tsc, a->real, b->real_tsc, b->real), NEAR);
}

static void run_often(const char *change)
{
	worst_page = worst_pair = worst_start = 0;
	for (int i = 0; i < RUNS; i++) {
		struct moment before, after;

		usleep(200000);
		before = read_clocks();
		run_guest();
		after = read_clocks();
		compare(&before, &after);
	}
	printf("pvclock: %s: the page is up to %lld ns off, the pairs %lld ns, the start %lld ns\n",
	       change, worst_page, worst_pair, worst_start);
}

static void request(const char *change, struct timex txc)
{
	check(adjtimex(&txc), change);
	run_often(change);
}

static void set_clock(time_t sec)
{
	struct timespec time = { .tv_sec = sec, .tv_nsec = 123456789 };

	check(clock_settime(CLOCK_REALTIME, &time), "clock_settime");
	run_often("set");
}

static void write_file(const char *name, const char *text)
{
	int file = open(name, O_WRONLY);

	check(write(file, text, strlen(text)), name);
	close(file);
}

/* Makes another guest, while another clocksource may count. */
static void use_source(const char *name)
{
	write_file("/sys/devices/system/clocksource/clocksource0/current_clocksource", name);
	sleep(1);
	is_tsc = !strcmp(name, "tsc");
	run_guest();
	make_guest();
	run_often(name);
}

/* Makes another guest after a suspend up to its last step, which moves BOOTTIME by 5 s. */
static void sleep_host(void)
{
	write_file("/sys/power/pm_test", "core");
	write_file("/sys/power/state", "mem");
	run_guest();
	make_guest();
	run_often("sleep");
}

int main(void)
{
	make_guest();
	run_often("start");
	set_clock(2000000000);
	request("500 ppm", (struct timex){ .modes = ADJ_FREQUENCY, .freq = 500 << 16 });
	request("tick 11000", (struct timex){ .modes = ADJ_TICK, .tick = 11000 });
	request("tick 9000", (struct timex){ .modes = ADJ_TICK, .tick = 9000 });
	request("tick 10000", (struct timex){ .modes = ADJ_TICK, .tick = 10000 });
	request("offset", (struct timex){ .modes = ADJ_OFFSET | ADJ_STATUS, .status = STA_PLL,
					  .offset = 100000 });
	request("TAI", (struct timex){ .modes = ADJ_TAI, .constant = 37 });
	request("step", (struct timex){ .modes = ADJ_SETOFFSET, .time = { -1000, 0 } });
	use_source("hpet");
	set_clock(1900000000);
	use_source("tsc");
	request("-500 ppm", (struct timex){ .modes = ADJ_FREQUENCY, .freq = -500 * 65536 });
	sleep_host();
	set_clock(2100000000);
	printf("RESULT pages of a guest of KVM = %lld\n", pages);
	printf("RESULT pages of a guest of KVM with a stable TSC = %lld\n", stable);
	printf("RESULT times of REALTIME for a guest of KVM = %lld\n", pairs);
	printf("RESULT wrong times for a guest of KVM = %lld\n", faults);
	return !!faults;
}
