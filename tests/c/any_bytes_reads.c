/* SPDX-License-Identifier: MIT OR Apache-2.0 */
/* Reads snapshots at random readings, and converts random stamps. */
#include "any_bytes.h"

#include <string.h>

enum { STAMPS_MOST = 40 };

static const uint32_t CLOCKS[] = {
	TKC_CLOCK_REALTIME,
	TKC_CLOCK_MONOTONIC,
	TKC_CLOCK_MONOTONIC_RAW,
	TKC_CLOCK_REALTIME_COARSE,
	TKC_CLOCK_MONOTONIC_COARSE,
	TKC_CLOCK_BOOTTIME,
	TKC_CLOCK_TAI,
};

static uint32_t get(struct tkc_time *time, const struct tkc_snapshot *snapshot,
		    uint32_t clock, uint64_t reading)
{
	struct tkc_time before;
	struct tkc_time *out = fill(rooms.time, &before, sizeof(before));
	uint32_t code = saw(tkc_snapshot_get(out, snapshot, clock, reading));

	check(code == TKC_OK || code == TKC_BAD_CLOCK || code == TKC_INVALID ||
	      code == TKC_RANGE);
	check(!code || !memcmp(out, &before, sizeof(before)));
	check(code || (out->sec >= 0 && out->nsec < 1000000000 && !out->padding));
	*time = *out;
	return code;
}

/* Checks that each converted stamp has its time, and the code of the next. */
static void check_converted(const struct tkc_snapshot *snapshot, uint32_t clock,
			    const uint64_t *stamps, size_t done,
			    const uint64_t *out, uint32_t code, size_t count)
{
	struct tkc_time time;

	for (size_t i = 0; i < done; i++) {
		check(!get(&time, snapshot, clock, stamps[i]));
		check(out[i] ==
		      (uint64_t)time.sec * 1000000000 + time.nsec);
	}
	check(code ? done < count : done == count);
	if (code)
		check(get(&time, snapshot, clock, stamps[done]) == code);
}

/* Returns the list, or for an empty list, NULL half of the time. */
static uint64_t *or_null(uint64_t *list, size_t count)
{
	return count || one_in(2) ? list : NULL;
}

static void try_convert(const struct tkc_snapshot *snapshot, uint32_t clock,
			uint64_t last)
{
	uint64_t before[STAMPS_MOST];
	size_t count = below(STAMPS_MOST), room = count, *done;
	size_t was_done = SIZE_MAX;
	uint64_t *stamps = place(rooms.stamps, count * sizeof(*stamps));
	uint64_t *out, *handed_out, *handed_stamps;
	uint32_t code;

	if (one_in(8))
		room = below(STAMPS_MOST);
	for (size_t i = 0; i < count; i++)
		stamps[i] = one_in(20) ? some() : last + (any() >> below(64));
	out = fill(rooms.out, before, room * sizeof(*out));
	done = put(rooms.done, &was_done, sizeof(was_done));
	handed_out = or_null(out, room);
	handed_stamps = or_null(stamps, count);
	code = saw(tkc_snapshot_convert(handed_out, room, done, snapshot, clock,
					handed_stamps, count));
	if (code == TKC_BAD_CLOCK || code == TKC_BAD_ROOM) {
		check(code == TKC_BAD_CLOCK || room < count);
		check(*done == SIZE_MAX);
		check(!memcmp(out, before, room * sizeof(*out)));
		return;
	}
	check(code == TKC_OK || code == TKC_INVALID || code == TKC_RANGE);
	check(room >= count && *done <= count);
	check(!memcmp(out + *done, before + *done,
		      (room - *done) * sizeof(*out)));
	check_converted(snapshot, clock, stamps, *done, out, code, count);
}

/* Finds the reading of a time, at which the clock must give it or a later one. */
static uint32_t find(struct tkc_time *found, const struct tkc_snapshot *snapshot,
		     uint32_t clock, int64_t sec, uint32_t nsec)
{
	uint64_t before;
	uint64_t *out = fill(rooms.out, &before, sizeof(before));
	uint32_t code = saw(tkc_snapshot_reading(out, snapshot, clock, sec, nsec));

	check(code == TKC_OK || code == TKC_BAD_CLOCK || code == TKC_FURTHER ||
	      code == TKC_NEVER);
	if (code) {
		check(*out == before);
		return code;
	}
	check(!get(found, snapshot, clock, *out));
	sec += nsec / 1000000000;
	nsec %= 1000000000;
	check(found->sec > sec || (found->sec == sec && found->nsec >= nsec));
	return code;
}

/* Finds the reading of any time, and of one that a read gives, which is read
 * again there. */
static void try_find(const struct tkc_snapshot *snapshot, uint32_t clock,
		     uint64_t last)
{
	struct tkc_time time, again;

	(void)find(&time, snapshot, one_in(10) ? (uint32_t)some() : clock,
		   (int64_t)some(), some_nsec());
	if (get(&time, snapshot, clock, last + (any() >> below(64))))
		return;
	check(!find(&again, snapshot, clock, time.sec, time.nsec));
	check(!memcmp(&again, &time, sizeof(time)));
}

/* Reads a clock at the last command, which gives what a read at its reading does. */
static void try_coarse(const struct tkc_snapshot *snapshot, uint32_t clock, uint64_t last)
{
	struct tkc_time before, time;
	struct tkc_time *out = fill(rooms.time, &before, sizeof(before));
	uint32_t code = saw(tkc_snapshot_coarse(out, snapshot, clock));

	check(code == TKC_OK || code == TKC_BAD_CLOCK);
	check(!code || !memcmp(out, &before, sizeof(before)));
	before = *out;
	check(get(&time, snapshot, clock, last) == code);
	check(code || !memcmp(&time, &before, sizeof(time)));
}

/* Tests a step, whose times are its amount apart. */
static void try_step(const struct tkc_snapshot *snapshot, uint64_t reading, int64_t sec)
{
	struct tkc_time old[2];
	struct tkc_time *before = fill(rooms.time, &old[0], sizeof(*old));
	struct tkc_time *after = fill(rooms.out, &old[1], sizeof(*old));
	uint32_t nsec = some_nsec();
	uint32_t code = saw(tkc_snapshot_step(before, after, snapshot, reading, sec, nsec));
	int64_t carry;

	check(code == TKC_OK || code == TKC_ASLEEP || code == TKC_INVALID ||
	      code == TKC_BEHIND || code == TKC_RANGE);
	if (code) {
		check(!memcmp(before, &old[0], sizeof(*old)));
		check(!memcmp(after, &old[1], sizeof(*old)));
		return;
	}
	check(before->sec >= 0 && before->nsec < 1000000000 && !before->padding);
	check(after->sec >= 0 && after->sec < 8277292036 && after->nsec < 1000000000 &&
	      !after->padding);
	carry = before->nsec + nsec >= 1000000000;
	check(after->sec - before->sec == sec + carry);
	check(after->nsec == before->nsec + nsec - 1000000000 * carry);
}

void try_reads(const struct tkc_snapshot *of)
{
	const struct tkc_snapshot *snapshot = put(rooms.snapshot, of,
						  sizeof(*of));
	uint32_t clock = CLOCKS[below(COUNT_OF(CLOCKS))];
	uint64_t words[TKC_WORDS];
	struct tkc_time time;

	tkc_snapshot_words(words, snapshot);
	check(tkc_snapshot_front(snapshot) == words[0]);
	check(tkc_snapshot_tai(snapshot) == words[7] / 2);
	check(tkc_snapshot_asleep(snapshot) == words[7] % 2);
	get(&time, snapshot, clock, some());
	check(get(&time, snapshot, TKC_CLOCK_MONOTONIC, words[1]) == TKC_OK);
	check(get(&time, snapshot, 12 + (uint32_t)below(UINT32_MAX - 12), 0) ==
	      TKC_BAD_CLOCK);
	try_convert(snapshot, one_in(10) ? (uint32_t)some() : clock, words[1]);
	try_find(snapshot, clock, words[1]);
	try_coarse(snapshot, one_in(10) ? (uint32_t)some() : clock, words[1]);
	try_step(snapshot, one_in(10) ? some() : words[1] + (any() >> below(64)),
		 (int64_t)some() >> below(40));
	check(!memcmp(snapshot, of, sizeof(*of)));
}
