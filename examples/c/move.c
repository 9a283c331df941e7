/* SPDX-License-Identifier: MIT OR Apache-2.0 */
/*
 * Moves the clocks of a virtual machine to another host, whose TSC has another rate. The first
 * process is the old host: it suspends the clocks, saves them as words and sends the words. The
 * second process is the new host: it loads the clocks, changes their counter while they are asleep,
 * and resumes them with the time away. BOOTTIME, REALTIME and TAI advance by that time, and
 * MONOTONIC doesn't. The frequency and the TAI offset don't change.
 *
 * Both TSCs are computed from one count of cycles, and the new host's TSC is scaled by 3 / 7. So
 * all runs print equal times.
 */
#define _POSIX_C_SOURCE 200809L
#include <inttypes.h>
#include <stdio.h>
#include <sys/wait.h>
#include <tkcore.h>
#include <unistd.h>

static const uint64_t HZ = 2500000000, OTHER_HZ = 1071428571;
static const uint64_t OPENED = 7000000000, STEERED = 9500000000, LEFT = 18250000003;
static const uint64_t ARRIVED = 49114197256; /* 12.345678901 s later */

enum { AWAY_SEC = 12, AWAY_NSEC = 345678901 };

/* Returns the reading of the new host's TSC when the old one's would be at `cycles`. */
static uint64_t other_tsc(uint64_t cycles)
{
	return cycles / 7 * 3 + cycles % 7 * 3 / 7;
}

/* Prints all clocks at a reading. Returns 0, or -1 if one has no time. */
static int print_clocks(const char *when, const struct tkc_clock *clock, uint64_t reading)
{
	static const struct {
		const char *name;
		uint32_t clock;
	} clocks[] = {
		{ "REALTIME", TKC_CLOCK_REALTIME },
		{ "MONOTONIC", TKC_CLOCK_MONOTONIC },
		{ "MONOTONIC_RAW", TKC_CLOCK_MONOTONIC_RAW },
		{ "REALTIME_COARSE", TKC_CLOCK_REALTIME_COARSE },
		{ "MONOTONIC_COARSE", TKC_CLOCK_MONOTONIC_COARSE },
		{ "BOOTTIME", TKC_CLOCK_BOOTTIME },
		{ "TAI", TKC_CLOCK_TAI },
	};
	struct tkc_snapshot snapshot;
	struct tkc_time time;

	tkc_clock_snapshot(&snapshot, clock);
	printf("%s\n", when);
	for (size_t i = 0; i < sizeof(clocks) / sizeof(clocks[0]); i++) {
		if (tkc_snapshot_get(&time, &snapshot, clocks[i].clock, reading))
			return -1;
		printf("  %-16s %11" PRId64 ".%09" PRIu32 "\n", clocks[i].name, time.sec, time.nsec);
	}
	return fflush(stdout);
}

/* Runs clocks on the old host, and sends them asleep. Returns 0, or -1 after a failure. */
static int leave(int to)
{
	uint64_t words[TKC_SAVED_WORDS];
	struct tkc_counter counter;
	struct tkc_clock clock;

	if (tkc_counter_from_hz(&counter, 64, HZ, 600) ||
	    tkc_clock_open(&clock, &counter, OPENED, 1700000000, 0) ||
	    tkc_clock_set_tai_offset(&clock, OPENED, 37) ||
	    tkc_clock_set_frequency(&clock, STEERED, 100 * 65536) ||
	    tkc_clock_suspend(&clock, LEFT) ||
	    print_clocks("before, on the old host", &clock, LEFT))
		return -1;
	tkc_clock_save(words, &clock);
	return write(to, words, sizeof(words)) == sizeof(words) ? 0 : -1;
}

/* Receives the clocks on the new host, and wakes them. Returns 0, or -1 after a failure. */
static int arrive(int from)
{
	const uint64_t first = other_tsc(ARRIVED);
	uint64_t words[TKC_SAVED_WORDS];
	struct tkc_counter counter;
	struct tkc_clock clock;

	if (read(from, words, sizeof(words)) != sizeof(words) ||
	    tkc_clock_load(&clock, words) ||
	    tkc_counter_from_hz(&counter, 64, OTHER_HZ, 600) ||
	    tkc_clock_change_counter(&clock, LEFT, &counter, first) ||
	    tkc_clock_resume(&clock, first, AWAY_SEC, AWAY_NSEC))
		return -1;
	if (print_clocks("after, on the new host", &clock, first))
		return -1;
	return print_clocks("one second later", &clock, other_tsc(ARRIVED + HZ));
}

int main(void)
{
	int ends[2], status;
	pid_t other;

	if (pipe(ends))
		return 1;
	other = fork();
	if (other < 0)
		return 1;
	if (!other) {
		close(ends[1]);
		return arrive(ends[0]) ? 1 : 0;
	}
	close(ends[0]);
	if (leave(ends[1]))
		fprintf(stderr, "move: the clocks can't leave the old host\n");
	close(ends[1]);
	if (waitpid(other, &status, 0) != other || status) {
		fprintf(stderr, "move: the clocks didn't arrive on the new host\n");
		return 1;
	}
	return 0;
}
