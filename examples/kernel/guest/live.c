// SPDX-License-Identifier: GPL-2.0
/*
 * Gives the kernel's clocks and the module's the same commands, and compares
 * both after each: STEP, SET_TIME, FREQ, TICK, TAI_OFFSET, and SUSPEND with
 * RESUME. Its status is 1 at the first command after which they differ.
 */
#include <inttypes.h>
#include <stdbool.h>
#include <stdio.h>
#include <stdlib.h>
#include <string.h>
#include <sys/timex.h>
#include <time.h>

enum clock { RAW, MONOTONIC, REALTIME, BOOTTIME, TAI, CLOCKS };

enum {
	STEP_SEC = -2,
	STEP_NSEC = 250000000,
	SET_SEC = 1700000000,
	SET_NSEC = 123456789,
	FREQUENCY = 100 << 16, /* 100 ppm */
	TICK_US = 10100,
	TAI_SEC = 37,
	/* the most that the kernel's discipline of its rate adds in the meantime */
	NEAR_NS = 100000,
	/* a tick of 1 % more, given to one clock some time before the other */
	TICK_NEAR_NS = 1000000,
	/* a rate is compared again if the host paused the guest between the two */
	TRIES = 10,
	/* the most that the kernel counts between its suspend and the module's */
	AWAKE_NS = 1000000000,
};

/* Beyond 32 bits. */
#define PAST_2038_SEC INT64_C(2200000000)

struct times {
	long long of[CLOCKS];
};

static void fail(const char *what)
{
	printf("live: %s\n", what);
	exit(1);
}

static struct times compare(void)
{
	FILE *file = fopen("/proc/tkcore/compare", "r");
	struct times now;

	if (!file || fscanf(file, "%lld %lld %lld %lld %lld", &now.of[RAW],
			    &now.of[MONOTONIC], &now.of[REALTIME],
			    &now.of[BOOTTIME], &now.of[TAI]) != CLOCKS)
		fail("the clocks can't be compared");
	fclose(file);
	return now;
}

static void write_file(const char *path, const char *text)
{
	FILE *file = fopen(path, "w");

	if (!file || fputs(text, file) < 0 || fclose(file)) {
		printf("live: %s: %s isn't taken\n", path, text);
		exit(1);
	}
}

/* Gives the module a command, and the kernel the same one if there is one. */
static void both(const char *text, struct timex *timex)
{
	if (timex && adjtimex(timex) < 0)
		fail("adjtimex() failed");
	write_file("/proc/tkcore/command", text);
}

static long long changed(const struct times *from, const struct times *to,
			 enum clock clock)
{
	return to->of[clock] - from->of[clock];
}

/* Returns whether the clocks differ from the kernel's as before, up to `near`
 * ns. */
static bool is_same(const char *what, const struct times *from, long long near)
{
	struct times now = compare();

	printf("live: %s: differences changed by %lld %lld %lld %lld %lld ns\n",
	       what, changed(from, &now, RAW), changed(from, &now, MONOTONIC),
	       changed(from, &now, REALTIME), changed(from, &now, BOOTTIME),
	       changed(from, &now, TAI));
	for (enum clock clock = RAW; clock < CLOCKS; clock++) {
		if (llabs(changed(from, &now, clock)) > (clock ? near : 1))
			return false;
	}
	return true;
}

static void same(const char *what, const struct times *from)
{
	if (!is_same(what, from, NEAR_NS))
		fail("the clocks differ");
}

/* The kernel changes its rate at its next timer interrupt. */
static void pause_a_while(void)
{
	struct timespec pause = { 0, 300000000 };

	nanosleep(&pause, NULL);
}

static void usual_rate(void)
{
	struct timex timex = { .modes = ADJ_FREQUENCY | ADJ_TICK,
			       .tick = 10000 };

	both("freq 0", &timex);
	both("tick 10000", NULL);
	pause_a_while();
}

/* The trial at insmod steered only the module's clocks. */
static void begin(void)
{
	struct timex timex = { .modes = ADJ_TAI };

	usual_rate();
	both("tai 0", &timex);
}

static void step(void)
{
	struct timex timex = { .modes = ADJ_SETOFFSET | ADJ_NANO,
			       .time = { STEP_SEC, STEP_NSEC } };
	struct times from = compare();
	char text[64];

	snprintf(text, sizeof(text), "step %d %d", STEP_SEC, STEP_NSEC);
	both(text, &timex);
	same("step", &from);
}

/* The module itself compares REALTIME, to the nanosecond. */
static void set(int64_t sec)
{
	char text[64];

	snprintf(text, sizeof(text), "set %" PRId64 " %d", sec, SET_NSEC);
	both(text, NULL);
	printf("live: %s: as do_settimeofday64() sets it\n", text);
}

/* Changes the rate of both clocks, and compares them after a while. */
static void rate(const char *name, int number, const struct timex *timex,
		 long long near)
{
	char text[64];

	snprintf(text, sizeof(text), "%s %d", name, number);
	for (int i = 0; i < TRIES; i++) {
		struct timex kernel = *timex;
		struct times from;

		usual_rate();
		from = compare();
		both(text, &kernel);
		pause_a_while();
		if (is_same(name, &from, near))
			return;
	}
	fail("the clocks differ");
}

static void rates(void)
{
	struct timex frequency = { .modes = ADJ_FREQUENCY, .freq = FREQUENCY };
	struct timex tick = { .modes = ADJ_TICK, .tick = TICK_US };

	rate("freq", FREQUENCY, &frequency, NEAR_NS);
	rate("tick", TICK_US, &tick, TICK_NEAR_NS);
	usual_rate();
}

static void tai(void)
{
	struct timex timex = { .modes = ADJ_TAI, .constant = TAI_SEC };
	struct times from = compare();
	char text[64];

	snprintf(text, sizeof(text), "tai %d", TAI_SEC);
	both(text, &timex);
	same("tai", &from);
}

/*
 * Suspends the system up to the point at which the firmware would be called.
 * The kernel counts for a while between the module's SUSPEND and its own
 * suspend, and between its own resume and the module's RESUME. The module's
 * clocks then lag by exactly that time, the same for all clocks.
 */
static void suspend(void)
{
	struct times from = compare(), now;

	write_file("/sys/power/pm_test", "core");
	write_file("/sys/power/state", "mem");
	now = compare();
	printf("live: suspend: the clocks lag by %lld %lld %lld %lld %lld ns\n",
	       -changed(&from, &now, RAW), -changed(&from, &now, MONOTONIC),
	       -changed(&from, &now, REALTIME), -changed(&from, &now, BOOTTIME),
	       -changed(&from, &now, TAI));
	for (enum clock clock = RAW; clock < CLOCKS; clock++) {
		long long lag = -changed(&from, &now, clock);

		if (lag < 0 || lag > AWAKE_NS ||
		    llabs(lag + changed(&from, &now, RAW)) > NEAR_NS)
			fail("the clocks differ");
	}
}

int main(void)
{
	setvbuf(stdout, NULL, _IOLBF, 0);
	begin();
	step();
	set(PAST_2038_SEC);
	set(SET_SEC);
	tai();
	rates();
	suspend();
	step();
	return 0;
}
