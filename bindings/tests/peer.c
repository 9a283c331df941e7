/* SPDX-License-Identifier: MIT OR Apache-2.0 */
/*
 * Writes or reads a page and a latch in a file that processes share. peer.py and
 * rust/examples/peer.rs do the same, so that each language reads what another one writes.
 *
 *     peer write FILE COMMANDS     makes the page and the latch, and applies the commands, and more
 *                                  until there is FILE.seen
 *     peer read FILE               prints "ready", and reads until the writer has ended; makes
 *                                  FILE.seen once it has seen 100 fronts
 *
 * The file contains the page at 0, the latch at 256, the counter at 512, and at 520 the word 1 once
 * the writer has ended. The counter has 1 ns a cycle, and moves by 10^6 cycles four times for each
 * command. A second counter is the same one scaled by 3 / 7. Command n sets the TAI offset to
 * n mod 100001 s if n is odd, and changes to the other counter if n is a multiple of 8. Otherwise
 * it sets the frequency to n * 997 mod 32768000, negative if n is a multiple of 4. So a reader can
 * compute the words and the counter of each snapshot. MONOTONIC of the page must never go back. The
 * writer pauses after each 256 commands, so that the reader runs on a busy machine too, and ends in
 * any case after 100 times COMMANDS.
 */
#include <fcntl.h>
#include <inttypes.h>
#include <stdio.h>
#include <stdlib.h>
#include <string.h>
#include <sys/mman.h>
#include <tkcore_page.h>
#include <unistd.h>

enum { SIZE = 4096, STEP = 1000000, PAUSE = 256, SEEN = 100, MOST = 100 };

/* Bits, mult and shift of the two counters. */
static const uint32_t numbers[2][3] = { { 64, 8388608, 23 }, { 56, 39146837, 24 } };

/* The name of the file that a reader makes to stop the writer. */
static char seen[4096];

struct shared {
	struct tkc_page page;
	struct tkc_latch latch;
	char more[256 - sizeof(struct tkc_latch)];
	tkc_word cycles, ended;
};

static void need(int holds, const char *what)
{
	if (holds)
		return;
	fprintf(stderr, "peer.c: %s\n", what);
	exit(EXIT_FAILURE);
}

static struct shared *mapped(const char *name, int is_written)
{
	int file = open(name, is_written ? O_RDWR : O_RDONLY);
	void *memory = mmap(NULL, SIZE, is_written ? PROT_READ | PROT_WRITE : PROT_READ, MAP_SHARED,
			    file, 0);

	need(file >= 0 && memory != MAP_FAILED, "the file can't be mapped");
	return memory;
}

static int64_t frequency_at(uint64_t n)
{
	int64_t frequency = (int64_t)(n * 997 % 32768000);

	return n % 4 ? frequency : -frequency;
}

static struct tkc_counter counter(int which)
{
	struct tkc_counter made;

	need(!tkc_counter_new(&made, numbers[which][0], numbers[which][1], numbers[which][2]),
	     "no counter");
	return made;
}

/* Returns the counter after n commands, and its reading. */
static int which_at(uint64_t n)
{
	return n / 8 % 2;
}

static uint64_t reading_at(int which, uint64_t cycles)
{
	return which ? cycles / 7 * 3 + cycles % 7 * 3 / 7 : cycles;
}

static uint64_t moved(struct shared *shared)
{
	uint64_t cycles = atomic_load_explicit(&shared->cycles, memory_order_relaxed) + STEP;

	atomic_store_explicit(&shared->cycles, cycles, memory_order_release);
	return cycles;
}

static void command(struct shared *shared, struct tkc_clock *clock, uint64_t n)
{
	const struct tkc_counter other = counter(which_at(n));
	struct tkc_snapshot snapshot;
	uint64_t cycles, reading;
	enum tkc_code code;
	int i;

	for (i = 0; i < 3; i++)
		moved(shared);
	tkc_page_begin(&shared->page);
	cycles = moved(shared);
	reading = reading_at(which_at(n - 1), cycles);
	if (n % 2)
		code = tkc_clock_set_tai_offset(clock, reading, (int64_t)(n % 100001));
	else if (n % 8)
		code = tkc_clock_set_frequency(clock, reading, frequency_at(n));
	else
		code = tkc_clock_change_counter(clock, reading, &other,
						reading_at(which_at(n), cycles));
	tkc_page_publish_clock(&shared->page, clock);
	tkc_clock_snapshot(&snapshot, clock);
	tkc_latch_publish(&shared->latch, &snapshot);
	need(!code, "a command was refused");
}

static void write_all(struct shared *shared, uint64_t commands)
{
	const struct tkc_counter first = counter(0);
	struct tkc_clock clock;
	struct tkc_snapshot snapshot;
	uint64_t n;

	need(!tkc_clock_open(&clock, &first, 0, 1700000000, 0), "no clocks");
	tkc_clock_snapshot(&snapshot, &clock);
	tkc_latch_init(&shared->latch, &snapshot);
	tkc_page_init_clock(&shared->page, &clock);
	for (n = 1; n <= commands || (n <= commands * MOST && access(seen, F_OK)); n++) {
		command(shared, &clock, n);
		if (n % PAUSE == 0)
			usleep(100);
	}
	atomic_store_explicit(&shared->ended, 1, memory_order_release);
}

static uint64_t read_counter(void *context)
{
	const struct shared *shared = context;

	return atomic_load_explicit(&shared->cycles, memory_order_acquire);
}

static void check_counter(const struct tkc_snapshot *snapshot, int which)
{
	struct tkc_counter found;
	uint32_t bits, mult, shift;

	tkc_snapshot_counter(&found, snapshot);
	tkc_counter_numbers(&bits, &mult, &shift, &found);
	need(bits == numbers[which][0] && mult == numbers[which][1] &&
	     shift == numbers[which][2], "a snapshot has another counter");
}

/* Checks that a snapshot is as one command left it. Returns its front. */
static uint64_t check_whole(const struct tkc_snapshot *snapshot)
{
	uint64_t words[TKC_WORDS], front, tai, frequency;
	int which;

	tkc_snapshot_words(words, snapshot);
	front = words[0];
	which = which_at(front);
	tai = front % 2 || !front ? front : front - 1;
	frequency = front % 2 ? front - 1 : front;
	if (frequency && frequency % 8 == 0)
		frequency -= 2;
	need(words[1] == reading_at(which, front * 4 * STEP), "a snapshot has another reading");
	need(words[7] == tai % 100001 * 2, "a snapshot has another TAI offset");
	need(words[2] == (uint64_t)(numbers[which][1] * (65536000000 + frequency_at(frequency)) /
				    65536000000),
	     "a snapshot has another multiplier");
	check_counter(snapshot, which);
	return front;
}

static void read_all(struct shared *shared)
{
	uint64_t reads = 0, fronts = 0, last = 0, ended, reading, front;
	struct tkc_time before = { 0, 0, 0 }, now;
	struct tkc_snapshot snapshot;

	do {
		ended = atomic_load_explicit(&shared->ended, memory_order_acquire);
		need(!tkc_page_look(&shared->page, read_counter, shared, &snapshot, &reading),
		     "the page can't be read");
		front = check_whole(&snapshot);
		need(!tkc_snapshot_get(&now, &snapshot, TKC_CLOCK_MONOTONIC,
				       reading_at(which_at(front), reading)), "no time");
		need(now.sec > before.sec || (now.sec == before.sec && now.nsec >= before.nsec),
		     "MONOTONIC went back");
		before = now;
		fronts += front != last;
		if (fronts == SEEN && front != last)
			close(open(seen, O_CREAT | O_WRONLY, 0600));
		need(front >= last, "the front went back");
		last = front;
		need(!tkc_latch_read(&shared->latch, &snapshot), "the latch can't be read");
		check_whole(&snapshot);
		reads++;
	} while (!ended);
	printf("%" PRIu64 " reads, %" PRIu64 " fronts\n", reads, fronts);
	need(fronts >= SEEN, "too few fronts were seen");
}

int main(int argc, char **argv)
{
	struct shared *shared;

	need(argc > 2, "peer write FILE COMMANDS, or peer read FILE");
	shared = mapped(argv[2], argc > 3);
	snprintf(seen, sizeof(seen), "%s.seen", argv[2]);
	if (!strcmp(argv[1], "write")) {
		write_all(shared, strtoull(argv[3], NULL, 10));
		return EXIT_SUCCESS;
	}
	puts("ready");
	fflush(stdout);
	while (tkc_page_attach(&shared->page) || tkc_latch_attach(&shared->latch))
		;
	read_all(shared);
	return EXIT_SUCCESS;
}
