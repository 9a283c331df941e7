// SPDX-License-Identifier: GPL-2.0
/*
 * Gives the kernel's adjtimex(2) and the module's tkc_adjtimex the same
 * requests, and compares the replies, and REALTIME after some seconds. Its
 * status is 1 if a reply or a time differs in each of some tries. With the
 * argument `long` there are four requests more.
 *
 * Requests follow at the middle of a second, since the kernel notices a second
 * at a tick. The program spins in between, because a processor that sleeps has
 * no ticks.
 */
#include <errno.h>
#include <fcntl.h>
#include <setjmp.h>
#include <stdbool.h>
#include <stdio.h>
#include <stdlib.h>
#include <string.h>
#include <sys/timex.h>
#include <time.h>
#include <unistd.h>

enum {
	SECOND = 1000000000,
	MIDDLE = 300000000, /* and up to twice as much */
	TICK_NS = 4000000,
	DAY = 86400,
	TRIES = 5, /* of all requests, since the host may pause a processor for long */
	PAUSE = 200000000, /* the longest pause that leaves both in a second */
};

/* A request, the changes of a second's length until the next one, in ns, and
 * whether only the long form makes it. */
struct step {
	const char *name;
	struct timex timex;
	long long change;
	bool is_long;
};

static const struct step steps[] = {
	{ "frequency", { .modes = ADJ_FREQUENCY, .freq = 100 << 16 }, 100000 },
	{ "tick", { .modes = ADJ_TICK, .tick = 10001 }, 100000 },
	{ "no phase", { .modes = ADJ_MICRO | ADJ_OFFSET, .offset = 300 }, 0, true },
	{ "offset",
	  { .modes = ADJ_OFFSET | ADJ_STATUS | ADJ_TIMECONST | ADJ_NANO |
		     ADJ_MAXERROR | ADJ_ESTERROR,
	    .offset = 1000000, .status = STA_PLL, .constant = 2,
	    .maxerror = 100, .esterror = 10 },
	  100000 },
	{ "read", { .modes = 0 }, 20000, true },
	{ "offset, FLL",
	  { .modes = ADJ_OFFSET | ADJ_STATUS, .offset = -200000,
	    .status = STA_PLL | STA_FLL | STA_FREQHOLD },
	  100000, true },
	{ "adjtime", { .modes = ADJ_OFFSET_SINGLESHOT, .offset = 700 }, 500000 },
	{ "rest of adjtime", { .modes = ADJ_OFFSET_SS_READ }, 500000, true },
	{ "step", { .modes = ADJ_SETOFFSET | ADJ_NANO, .time = { -2, 250000000 } },
	  500000 },
	{ "TAI", { .modes = ADJ_TAI, .constant = 37 }, 0 },
	{ "no tick", { .modes = ADJ_TICK, .tick = 8999 }, 0 },
	{ "no frequency", { .modes = ADJ_FREQUENCY, .freq = 140737488356 },
	  0 },
	{ "no step", { .modes = ADJ_SETOFFSET, .time = { 0, 1000000 } }, 0 },
	{ "no adjtime", { .modes = 0x8000, .offset = 1 }, 0 },
	{ "leap second",
	  { .modes = ADJ_STATUS | ADJ_MAXERROR | ADJ_FREQUENCY | ADJ_TICK |
		     ADJ_MICRO,
	    .status = STA_INS, .tick = 10000 },
	  200000 },
};

/* What times may be apart by: this many units of the multiplier for a second,
 * and the phase of two ticks and of the longest pause since the last request. */
static long long units, unit_ps, phase_ns, paused;
static int requests;
static jmp_buf again;

static void try_again(const char *name, const char *what)
{
	printf("steer: %s: %s\n", name, what);
	longjmp(again, 1);
}

static void fail(const char *what)
{
	printf("steer: %s\n", what);
	exit(1);
}

static long long now(clockid_t clock)
{
	struct timespec time;

	clock_gettime(clock, &time);
	return time.tv_sec * (long long)SECOND + time.tv_nsec;
}

/* Spins to the middle of the next second, and notes the longest pause. */
static void spin(void)
{
	long long last = now(CLOCK_MONOTONIC_RAW), end = last + SECOND / 2, next;
	long long past;

	do {
		next = now(CLOCK_MONOTONIC_RAW);
		past = now(CLOCK_REALTIME) % SECOND;
		if (next - last > paused)
			paused = next - last;
		last = next;
	} while (next < end || past < MIDDLE || past > 2 * MIDDLE);
}

static int open_file(const char *path)
{
	int file = open(path, O_RDWR);

	if (file < 0)
		fail(path);
	return file;
}

/* Returns the module's REALTIME minus the kernel's, in ns. */
static long long difference(void)
{
	FILE *file = fopen("/proc/tkcore/steered", "r");
	long long ns;

	if (!file || fscanf(file, "%lld %lld", &ns, &unit_ps) != 2)
		fail("the clocks can't be compared");
	fclose(file);
	return ns;
}

/* Returns the module's result of a request, and stores the reply. */
static int ask(struct timex *timex)
{
	struct {
		struct timex timex;
		int result;
	} reply;
	int file = open_file("/proc/tkcore/adjtimex");

	if (write(file, timex, sizeof(*timex)) != sizeof(*timex) ||
	    pread(file, &reply, 212, 0) != 212)
		fail("the module takes no request");
	close(file);
	*timex = reply.timex;
	return reply.result;
}

static void print_reply(const char *who, int result, const struct timex *timex)
{
	printf("steer: %s: %d, offset %ld freq %ld maxerror %ld esterror %ld "
	       "status %x constant %ld tick %ld tai %d\n", who, result,
	       timex->offset, timex->freq, timex->maxerror, timex->esterror,
	       timex->status, timex->constant, timex->tick, timex->tai);
}

/*
 * Gives both a request, and returns the state. All bytes of the replies but
 * their times must be the same.
 */
static int both(const char *name, const struct timex *request)
{
	struct timex kernel = *request, module = *request;
	long long from = now(CLOCK_MONOTONIC_RAW), real = now(CLOCK_REALTIME);
	int state = adjtimex(&kernel), found;

	if (state < 0)
		state = -errno;
	found = ask(&module);
	from = now(CLOCK_MONOTONIC_RAW) - from;
	if (real % SECOND < MIDDLE / 2 || real % SECOND > SECOND - PAUSE ||
	    from > PAUSE)
		try_again(name, "the host paused the guest");
	if (from > paused)
		paused = from;
	module.time = kernel.time;
	requests++;
	if (found == state && !memcmp(&kernel, &module, sizeof(kernel)))
		return found;
	print_reply("kernel", state, &kernel);
	print_reply("module", found, &module);
	try_again(name, "the replies differ");
	return -1;
}

static void compare_times(const char *name)
{
	long long apart = difference();
	long long most = units * unit_ps / 1000 + phase_ns + 2;

	printf("steer: %s: REALTIME differs by %lld ns, at most %lld\n", name,
	       apart, most);
	if (llabs(apart) > most)
		try_again(name, "that is too much");
}

/* Opens the module's clocks at the kernel's time, after the kernel's discipline
 * has become that of a fresh one. */
static void begin(void)
{
	static const struct timex usual[] = {
		{ .modes = ADJ_SETOFFSET },
		{ .modes = ADJ_STATUS, .status = STA_PLL },
		{ .modes = ADJ_STATUS, .status = STA_UNSYNC },
		{ .modes = ADJ_FREQUENCY | ADJ_TICK | ADJ_TAI | ADJ_NANO,
		  .tick = 10000 },
		{ .modes = ADJ_TIMECONST | ADJ_NANO, .constant = 2 },
		{ .modes = ADJ_MICRO },
	};
	int file;

	for (size_t i = 0; i < sizeof(usual) / sizeof(*usual); i++) {
		struct timex timex = usual[i];

		if (adjtimex(&timex) < 0)
			fail("adjtimex() failed");
	}
	spin();
	spin();
	units = 2, phase_ns = paused = requests = 0;
	file = open_file("/proc/tkcore/steered");
	if (write(file, "", 1) != 1)
		fail("the module's clocks don't open");
	close(file);
}

/* Sets both to three seconds before the end of a day. */
static void to_midnight(void)
{
	long sec = DAY - 3 - now(CLOCK_REALTIME) / SECOND % DAY;
	struct timex timex = { .modes = ADJ_SETOFFSET, .time = { sec, 0 } };

	both("a step to midnight", &timex);
	units++;
}

/* All states of a leap second that is inserted. */
static void leap(void)
{
	static const struct timex off = { .modes = ADJ_STATUS };
	static const struct timex read = { .modes = 0 };
	int state, seen = 0;

	for (int i = 0; i < 6; i++) {
		spin();
		state = both("leap second", &read);
		seen |= 1 << state;
		compare_times("leap second");
	}
	both("no leap second", &off);
	spin();
	spin();
	seen |= 1 << both("after the leap second", &read);
	if (seen != (1 << TIME_OK | 1 << TIME_INS | 1 << TIME_OOP | 1 << TIME_WAIT))
		fail("a state of the leap second wasn't met");
}

/* Requests with a fault change nothing, so the next one follows at once. */
static bool is_faulty(const struct step *step)
{
	return !strncmp(step->name, "no ", 3) && strcmp(step->name, "no phase");
}

static void run(bool is_long)
{
	begin();
	for (size_t i = 0; i < sizeof(steps) / sizeof(*steps); i++) {
		if (steps[i].is_long && !is_long)
			continue;
		if (steps[i].timex.modes & ADJ_STATUS &&
		    steps[i].timex.status & STA_INS)
			to_midnight();
		paused = 0;
		both(steps[i].name, &steps[i].timex);
		if (is_faulty(&steps[i]))
			continue;
		units += steps[i].timex.modes & ADJ_SETOFFSET ? 1 : 0;
		spin();
		phase_ns += steps[i].change * (2 * TICK_NS + paused) / SECOND;
		compare_times(steps[i].name);
	}
	leap();
}

int main(int count, char **words)
{
	static int tries;

	setvbuf(stdout, NULL, _IOLBF, 0);
	if (setjmp(again) && ++tries == TRIES)
		fail("all tries failed");
	run(count > 1 && !strcmp(words[1], "long"));
	printf("steer: %d replies are the kernel's\n", requests);
	return 0;
}
