/* SPDX-License-Identifier: MIT OR Apache-2.0 */
/* Saves steered clocks as words with their counter, loads them, and advances loaded ones. */
#include "worked_rows.h"

/* A word of saved steered clocks, in its place, and the code of a load. */
struct saved_word {
	size_t place;
	uint64_t word;
	uint32_t code;
};

/* The steered clocks of `steered`, whose hz is 250. Each number is at the ends of
 * its range and just past them; and as it was, plus 2^32, if it has fewer bits. */
static const struct saved_word saved_ntp_words[] = {
	{ 0, UINT64_MAX, TKC_OK },
	{ 2, 16777217, TKC_BAD_WORDS },
	{ 7, 200002, TKC_BAD_WORDS },
	{ 10, 65, TKC_BAD_WORDS },
	{ 14, 10001, TKC_BAD_WORDS },
	/* hz: at 1, each number stays in its range */
	{ 15, 0, TKC_BAD_WORDS },
	{ 15, 1, TKC_OK },
	{ 15, 1025, TKC_BAD_WORDS },
	{ 15, 4294967546, TKC_BAD_WORDS },
	/* the status: any 32 bits */
	{ 16, 0, TKC_OK },
	{ 16, 4294967295, TKC_OK },
	{ 16, 4294967296, TKC_BAD_WORDS },
	/* the state of the leap second, and whether and when it is due */
	{ 17, 4, TKC_OK },
	{ 17, 5, TKC_BAD_WORDS },
	{ 17, 4294967296, TKC_BAD_WORDS },
	{ 18, 1, TKC_OK },
	{ 18, 2, TKC_BAD_WORDS },
	{ 18, 256, TKC_BAD_WORDS },
	{ 19, 1, TKC_BAD_WORDS },
	/* the offset: half a second of 2^-32 ns, divided by 250 */
	{ 20, 8589934592000000, TKC_OK },
	{ 20, 8589934592000001, TKC_BAD_WORDS },
	{ 20, 18438154139117551616U, TKC_OK },
	{ 20, 18438154139117551615U, TKC_BAD_WORDS },
	{ 20, 9223372036854775808U, TKC_BAD_WORDS },
	{ 21, 0, TKC_OK },
	{ 21, 10, TKC_OK },
	{ 21, 11, TKC_BAD_WORDS },
	{ 21, 4294967298, TKC_BAD_WORDS },
	{ 22, 0, TKC_OK },
	{ 22, 16000000, TKC_OK },
	{ 22, 16000001, TKC_BAD_WORDS },
	{ 22, 4310967296, TKC_BAD_WORDS },
	{ 23, 16000000, TKC_OK },
	{ 23, 16000001, TKC_BAD_WORDS },
	{ 23, 4294967296, TKC_BAD_WORDS },
	{ 24, 8999, TKC_BAD_WORDS },
	{ 24, 9000, TKC_OK },
	{ 24, 11000, TKC_OK },
	{ 24, 11001, TKC_BAD_WORDS },
	{ 24, 4294977296, TKC_BAD_WORDS },
	/* the frequency: 500 us of 2^-32 ns */
	{ 25, 2147483648000000, TKC_OK },
	{ 25, 2147483648000001, TKC_BAD_WORDS },
	{ 25, 18444596590061551616U, TKC_OK },
	{ 25, 18444596590061551615U, TKC_BAD_WORDS },
	{ 26, 9223372036854775807, TKC_OK },
	{ 26, 9223372036854775808U, TKC_BAD_WORDS },
	/* the rest of adjtime: any number */
	{ 27, 9223372036854775807, TKC_OK },
	{ 27, 9223372036854775808U, TKC_OK },
	/* the phase: half a second and 500 us, both divided by 250 */
	{ 28, 8598524526592000, TKC_OK },
	{ 28, 8598524526592001, TKC_BAD_WORDS },
	{ 28, 18438145549182959616U, TKC_OK },
	{ 28, 18438145549182959615U, TKC_BAD_WORDS },
	/* the lag, plus 2^124: 2^60 in the upper word, at most half of it away */
	{ 29, 576460752303423487, TKC_BAD_WORDS },
	{ 29, 576460752303423488, TKC_OK },
	{ 29, 1729382256910270463, TKC_OK },
	{ 29, 1729382256910270464, TKC_OK },
	{ 29, 1729382256910270465, TKC_BAD_WORDS },
	{ 30, UINT64_MAX, TKC_OK },
	{ 31, 0, TKC_OK },
	{ 31, 9223372037, TKC_OK },
	{ 31, 9223372038, TKC_BAD_WORDS },
	{ 32, UINT64_MAX, TKC_OK },
};

/* Returns steered clocks over a counter of a nanosecond a cycle, which were opened at
 * the reading 7 and have advanced once, which made no command. */
static struct tkc_ntp steered(void)
{
	struct tkc_counter counter = nanosecond_counter();
	struct tkc_ntp ntp;

	check(!tkc_ntp_open(&ntp, &counter, 7, 1700000000, 5, 250));
	check(!tkc_ntp_advance(&ntp, 9));
	return ntp;
}

/* The words of `steered`. */
static const uint64_t steered_words[] = {
	0, 7, 16777216, 0, 0, 1700000000000000005, 0, 0, 0, 0,
	32, 16777216, 24, 0, 10000,
	250, 64, 0, 0, 0, 0, 2, 16000000, 16000000, 10000, 0, 0, 0, 0,
	1152921504606846976, 0, 1700000001, 7,
};

/* Loads words, which must give steered clocks with the same words, or leave the memory
 * as it was. */
static void load(const uint64_t words[TKC_NTP_SAVED_WORDS], uint32_t code)
{
	uint64_t found[TKC_NTP_SAVED_WORDS];
	struct tkc_ntp out;

	make_old(&out);
	check(tkc_ntp_load(&out, words) == code);
	if (code) {
		check(is_old(&out));
		return;
	}
	make_old(&found);
	tkc_ntp_save(found, &out);
	check(!memcmp(found, words, sizeof(found)));
}

static void try_saved_word(const struct saved_word *row)
{
	uint64_t words[TKC_NTP_SAVED_WORDS];

	memcpy(words, steered_words, sizeof(words));
	words[row->place] = row->word;
	load(words, row->code);
}

/* The numbers whose ranges depend on another one. */
static void try_pairs(void)
{
	uint64_t words[TKC_NTP_SAVED_WORDS];

	memcpy(words, steered_words, sizeof(words));
	words[18] = 1;
	words[19] = UINT64_MAX; /* a leap that is due */
	load(words, TKC_OK);
	words[20] = 8589934592000000;
	words[15] = 251; /* more parts, which are shorter */
	load(words, TKC_BAD_WORDS);
	words[20] = 0;
	words[29] = 1729382256910270464;
	words[30] = 1; /* one more than 3 * 2^123 */
	load(words, TKC_BAD_WORDS);
	words[29] = 576460752303423488;
	load(words, TKC_OK);
}

/* A reading of the clocks of `late`, and the code of a call there. */
struct late_reading {
	uint64_t reading;
	uint32_t code;
};

/* MONOTONIC reaches its limit at the reading 7 + 946080000 s, before the reading 2^60, up
 * to which the lag is accounted for. The test of the last command and that of the limit come
 * before that of the account. The last reading is 2^63 + 7. */
static const struct late_reading late_readings[] = {
	{ 7, TKC_BEHIND },
	{ 946079999999999999, TKC_BEHIND },
	{ 946080000000000006, TKC_BEHIND },
	{ 946080000000000007, TKC_RANGE },
	{ 1152921504606846975, TKC_RANGE },
	{ 1152921504606846976, TKC_RANGE },
	{ 6, TKC_BEHIND },
	{ 9223372036854775815U, TKC_BEHIND },
};

/* Returns the clocks of `steered` with readings of 64 bits, whose lag is accounted for up to
 * the reading 2^60. */
static struct tkc_ntp late(void)
{
	uint64_t words[TKC_NTP_SAVED_WORDS];
	struct tkc_ntp ntp;

	memcpy(words, steered_words, sizeof(words));
	words[10] = 64;
	words[32] = UINT64_C(1) << 60;
	check(!tkc_ntp_load(&ntp, words));
	return ntp;
}

/* No refused call changes the clocks. */
static void try_late_reading(const struct late_reading *row)
{
	struct tkc_timex timex = { .modes = 0 };
	struct tkc_ntp ntp = late(), before = ntp;
	struct tkc_counter counter = nanosecond_counter();
	struct tkc_snapshot snapshot;
	uint32_t state, changed = 77;

	check(tkc_ntp_advance(&ntp, row->reading) == row->code);
	check(tkc_ntp_advance_late(&ntp, row->reading) == row->code);
	check(tkc_ntp_apply(&ntp, row->reading, TKC_CMD_UPDATE, 0, 0) == row->code);
	check(tkc_ntp_tick(&snapshot, &changed, &ntp, row->reading) == row->code);
	check(changed == 77);
	check(tkc_adjtimex(&timex, &state, &ntp, row->reading) == row->code);
	check(tkc_ntp_change_counter(&ntp, row->reading, &counter, 0) == row->code);
	check(tkc_ntp_change_counter(&ntp, row->reading, &counter, 4294967296) == TKC_INVALID);
	check(!memcmp(&ntp, &before, sizeof(ntp)));
}

/* A front, a reading of the clocks of `steered` with this front, and what calls return
 * there. Their next second begins at the reading 1,000,000,002. A second and an update
 * need room for 3 commands, a request for 6, below 2^63: at the front 2^63 - 4, there is
 * room for 3. */
struct full_front {
	uint64_t front, reading;
	uint32_t advance, update, request;
};

static const struct full_front full_fronts[] = {
	{ 9223372036854775801, 9, TKC_OK, TKC_OK, TKC_OK },
	{ 9223372036854775802, 9, TKC_OK, TKC_OK, TKC_FULL },
	{ 9223372036854775804, 9, TKC_OK, TKC_OK, TKC_FULL },
	{ 9223372036854775805, 9, TKC_OK, TKC_FULL, TKC_FULL },
	{ INT64_MAX, 9, TKC_OK, TKC_FULL, TKC_FULL },
	{ UINT64_MAX, 9, TKC_OK, TKC_FULL, TKC_FULL },
	{ UINT64_MAX, 1000000001, TKC_OK, TKC_FULL, TKC_FULL },
	{ 9223372036854775801, 1000000002, TKC_OK, TKC_OK, TKC_OK },
	{ 9223372036854775804, 1000000002, TKC_OK, TKC_OK, TKC_FULL },
	{ 9223372036854775805, 1000000002, TKC_FULL, TKC_FULL, TKC_FULL },
	{ UINT64_MAX, 1000000002, TKC_FULL, TKC_FULL, TKC_FULL },
	{ INT64_MAX, 6, TKC_BEHIND, TKC_BEHIND, TKC_BEHIND },
	{ UINT64_MAX, 4294967296, TKC_INVALID, TKC_INVALID, TKC_INVALID },
};

static uint64_t front_of(const struct tkc_ntp *ntp)
{
	struct tkc_snapshot snapshot;

	tkc_ntp_snapshot(&snapshot, ntp);
	return tkc_snapshot_front(&snapshot);
}

/* Checks the code of a call, which added some commands to the front, or left the clocks
 * as they were. A second may have begun before a request that found no room. */
static void check_counted(const struct tkc_ntp *before, const struct tkc_ntp *after,
			  uint32_t code, uint32_t wanted, uint64_t commands)
{
	check(code == wanted);
	check(front_of(after) == front_of(before) + (code ? 0 : commands));
	if (code && code != TKC_FULL)
		check(!memcmp(after, before, sizeof(*after)));
}

static void try_full_front(const struct full_front *row)
{
	struct tkc_timex timex = { .modes = 0 };
	uint64_t words[TKC_NTP_SAVED_WORDS], reading = row->reading;
	struct tkc_ntp ntp, before;
	struct tkc_snapshot snapshot;
	uint32_t state = 77, changed = 77;

	memcpy(words, steered_words, sizeof(words));
	words[0] = row->front;
	check(!tkc_ntp_load(&before, words));
	ntp = before;
	check_counted(&before, &ntp, tkc_ntp_advance(&ntp, reading), row->advance, 0);
	check(!row->advance || !memcmp(&ntp, &before, sizeof(ntp)));
	ntp = before;
	check_counted(&before, &ntp, tkc_ntp_advance_late(&ntp, reading), row->advance, 0);
	check(!row->advance || !memcmp(&ntp, &before, sizeof(ntp)));
	ntp = before;
	check_counted(&before, &ntp, tkc_ntp_apply(&ntp, reading, TKC_CMD_UPDATE, 0, 0),
		      row->update, 1);
	ntp = before;
	check_counted(&before, &ntp, tkc_ntp_tick(&snapshot, &changed, &ntp, reading), row->update,
		      1);
	check((changed == 77) == (row->update != TKC_OK));
	ntp = before;
	check_counted(&before, &ntp, tkc_ntp_apply(&ntp, reading, TKC_CMD_FREQ, 65536000, 0),
		      row->request, 1);
	ntp = before;
	check_counted(&before, &ntp, tkc_adjtimex(&timex, &state, &ntp, reading), row->request,
		      0);
	check((state == 77) == (row->request != TKC_OK));
	ntp = before;
	check(tkc_ntp_apply(&ntp, reading, 9, 0, 0) == TKC_BAD_COMMAND);
	check(tkc_ntp_apply(&ntp, reading, TKC_CMD_TICK, 5, 0) == TKC_INVALID);
	check(!memcmp(&ntp, &before, sizeof(ntp)));
}

/* The words of the clocks of `steered` with other numbers, by which the next second needs 3
 * commands: for its leap, for a tick and for a frequency. The front is 0 here and below. */
static const uint64_t due_words[] = {
	0, 7, 16777216, 0, 0, 1700000000000000005, 0, 0, 0, 0, 32, 16777216, 24, 0,
	10000, 250, 16, 1, 1, 1700000001, 0, 2, 16000000, 16000000, 10100,
	4294967296000, 0, 0, 0, 1152921504606846976, 0, 1700000001, 7,
};

/* Those words after a change of counter before that second; after the second; and after the second
 * and a change. */
static const uint64_t early_words[] = {
	0, 11, 8388608, 8388607949668352, 0, 1700000000000000005, 0, 0,
	8388607949668352, 0, 64, 8388608, 23, 0, 10000, 250, 16, 1, 1, 1700000001, 0,
	2, 16000000, 16000000, 10100, 4294967296000, 0, 0, 0, 1152941037809854776,
	14411518807585587200U, 1700000001, 11,
};

static const uint64_t leapt_words[] = {
	0, 1000000002, 16953395, 16777215916113920, 0, 1699999999000000005, 0, 2,
	16777215916113920, 0, 32, 16777216, 24, 73348, 10105, 250, 80, 3, 1,
	1700000001, 0, 2, 16000000, 16000000, 10100, 4294967296000, 0, 0, 0,
	1152960571012901643, 17870283321406128128U, 1700000001, 1000000002,
};

static const uint64_t changed_words[] = {
	0, 11, 8476697, 17393842, 1, 1699999999000000005, 0, 2, 16777216, 1, 64,
	8388608, 23, 73348, 10105, 250, 80, 3, 1, 1700000001, 0, 2, 16000000, 16000000,
	10100, 4294967296000, 0, 0, 0, 1152941037809867472, 15889305316270014464U,
	1700000001, 11,
};

/* The words of `due_words` while the clocks are asleep, and after a change then. */
static const uint64_t asleep_words[] = {
	0, 7, 16777216, 0, 0, 1700000000000000005, 0, 1, 0, 0, 32, 16777216, 24, 0,
	10000, 250, 16, 1, 1, 1700000001, 0, 2, 16000000, 16000000, 10100,
	4294967296000, 0, 0, 0, 1152921504606846976, 0, 1700000001, 7,
};

static const uint64_t moved_words[] = {
	0, 11, 8388608, 0, 0, 1700000000000000005, 0, 1, 0, 0, 64, 8388608, 23, 0,
	10000, 250, 16, 1, 1, 1700000001, 0, 2, 16000000, 16000000, 10100,
	4294967296000, 0, 0, 0, 1152921504606846976, 0, 1700000001, 11,
};

/* Words, a front of their clocks, a reading of them, and what a change of counter returns there and
 * leaves. The second of `due_words` begins at the reading 1,000,000,002. */
struct full_change {
	const uint64_t *words;
	uint64_t front, reading;
	uint32_t code;
	uint64_t front_after;
	const uint64_t *words_after;
};

/* A front of 2^63 - 1 or more leaves no room for the change. With its 3 commands the second leads
 * from 2^63 - 4 to such a front, and has begun although the change is refused. From 2^63 - 3 it
 * can't begin. While the clocks are asleep, it doesn't, and the reading may be behind. */
static const struct full_change full_changes[] = {
	{ due_words, 0, 1000000001, TKC_OK, 1, early_words },
	{ due_words, 9223372036854775806, 1000000001, TKC_OK, 9223372036854775807, early_words },
	{ due_words, 9223372036854775807, 1000000001, TKC_FULL, 9223372036854775807, due_words },
	{ due_words, UINT64_MAX, 1000000001, TKC_FULL, UINT64_MAX, due_words },
	{ due_words, 0, 1000000009, TKC_OK, 4, changed_words },
	{ due_words, 9223372036854775803, 1000000009, TKC_OK, 9223372036854775807, changed_words },
	{ due_words, 9223372036854775804, 1000000009, TKC_FULL, 9223372036854775807, leapt_words },
	{ due_words, 9223372036854775805, 1000000009, TKC_FULL, 9223372036854775805, due_words },
	{ due_words, 9223372036854775807, 1000000009, TKC_FULL, 9223372036854775807, due_words },
	{ due_words, UINT64_MAX, 1000000009, TKC_FULL, UINT64_MAX, due_words },
	{ due_words, UINT64_MAX, 6, TKC_BEHIND, UINT64_MAX, due_words },
	{ due_words, UINT64_MAX, 4294967296, TKC_INVALID, UINT64_MAX, due_words },
	{ asleep_words, 9223372036854775806, 6, TKC_OK, 9223372036854775807, moved_words },
	{ asleep_words, 9223372036854775807, 6, TKC_FULL, 9223372036854775807, asleep_words },
	{ asleep_words, UINT64_MAX, 1000000009, TKC_FULL, UINT64_MAX, asleep_words },
	{ asleep_words, UINT64_MAX, 4294967296, TKC_INVALID, UINT64_MAX, asleep_words },
};

static void try_full_change(const struct full_change *row)
{
	uint64_t words[TKC_NTP_SAVED_WORDS], wanted[TKC_NTP_SAVED_WORDS];
	struct tkc_counter counter;
	struct tkc_ntp ntp, before;

	check(!tkc_counter_new(&counter, 64, 8388608, 23));
	memcpy(words, row->words, sizeof(words));
	words[0] = row->front;
	check(!tkc_ntp_load(&ntp, words));
	before = ntp;
	check(tkc_ntp_change_counter(&ntp, row->reading, &counter, 11) == row->code);
	tkc_ntp_save(words, &ntp);
	memcpy(wanted, row->words_after, sizeof(wanted));
	wanted[0] = row->front_after;
	check(!memcmp(words, wanted, sizeof(words)));
	check(row->words_after != row->words || !memcmp(&ntp, &before, sizeof(ntp)));
}

/* With a phase, each second needs one command. From the front 2^63 - 4, one of two seconds
 * begins, and the clocks are those of other clocks that have advanced so far. */
static void try_full_amid(void)
{
	uint64_t words[TKC_NTP_SAVED_WORDS], others[TKC_NTP_SAVED_WORDS], second;
	struct tkc_counter counter = nanosecond_counter();
	struct tkc_ntp ntp, other, changed;

	memcpy(words, steered_words, sizeof(words));
	words[20] = 8589934592000;
	check(!tkc_ntp_load(&other, words));
	words[0] = INT64_MAX - 3;
	check(!tkc_ntp_load(&ntp, words));
	changed = ntp;
	check(tkc_ntp_advance(&ntp, 2100000000) == TKC_FULL);
	check(!tkc_ntp_next_second(&second, &ntp));
	check(second > 1999000000 && second < 2001000000);
	check(!tkc_ntp_advance(&other, second - 1));
	tkc_ntp_save(words, &ntp);
	tkc_ntp_save(others, &other);
	check(words[0] == INT64_MAX - 2 && others[0] == 1);
	check(!memcmp(words + 1, others + 1, sizeof(words) - sizeof(*words)));
	check(tkc_ntp_change_counter(&changed, 2100000000, &counter, 11) == TKC_FULL);
	check(!memcmp(&changed, &ntp, sizeof(ntp)));
}

void try_saved_ntp(void)
{
	struct tkc_ntp ntp = steered();
	uint64_t words[TKC_NTP_SAVED_WORDS];

	make_old(&words);
	tkc_ntp_save(words, &ntp);
	check(!memcmp(words, steered_words, sizeof(words)));
	load(words, TKC_OK);
	try_each(saved_ntp_words, try_saved_word);
	try_pairs();
	try_each(late_readings, try_late_reading);
	try_each(full_fronts, try_full_front);
	try_each(full_changes, try_full_change);
	try_full_amid();
}
