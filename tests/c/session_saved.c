/* SPDX-License-Identifier: MIT OR Apache-2.0 */
/* The words and the snapshot of a session: of the clocks that the words load, and of a session that
 * a record continues from them. */
#include "session.h"

#include <inttypes.h>
#include <stdio.h>
#include <stdlib.h>

enum { WORDS = TKC_NTP_SAVED_WORDS };

/* A script, and how many words its clocks have. */
struct saved_script {
	uint32_t count;
	struct given records[6];
};

static const struct saved_script scripts[] = {
	{ 0, { { 0 } } },
	{ TKC_SAVED_WORDS, { { RECORD("open,32,16777216,24,7,1700000000,0"), TKC_OK,
			       "open,32,16777216,24\n" } } },
	{ TKC_SAVED_WORDS,
	  { { RECORD("openhz,64,1000000,600,0,0,0"), TKC_OK, "open,64,2097152000,21\n" },
	    { RECORD("freq,1000000,-32768001"), TKC_OK, "ok,1,1.000000000\n" },
	    { RECORD("tick,2000000,11000"), TKC_OK, "ok,2,1.999500000\n" },
	    { RECORD("suspend,3000000"), TKC_OK, "ok,3,3.099000000\n" } } },
	{ WORDS, { { RECORD("open,64,8388608,23,0,1483228797,500000000,250"), TKC_OK,
		     "open,64,8388608,23\n" } } },
	{ WORDS,
	  { { RECORD("open,64,8388608,23,0,1483228797,500000000,250"), TKC_OK,
	      "open,64,8388608,23\n" },
	    { RECORD("adjtimex,3,8209,-499999999,0,0,0,8209,0,0,0,0"), TKC_OK,
	      "adj,ok,1483228797.500000003,-499999998,0,16000000,16000000,8209,2,10000,0,0\n" },
	    { RECORD("get,1000000000,monotonic"), TKC_OK, "at,monotonic,0.984375000\n" } } },
};

/* Writes the record that continues the clocks of these words. Words that may be negative are. */
static void write_continued(char *record, size_t room, const uint64_t *words, uint32_t count)
{
	static const int order[15] = { 10, 11, 12, 0, 1, 2, 3, 4, 5, 6, 7, 8, 9, 13, 14 };
	size_t at = (size_t)snprintf(record, room, "openwords");

	for (uint32_t i = 0; i < count; i++) {
		uint32_t word = i < 15 ? (uint32_t)order[i] : i;
		bool is_signed = word == 13 || word == 14 || word == 20 || word == 25 ||
				 word == 27 || word == 28;

		at += is_signed ? (size_t)snprintf(record + at, room - at, ",%" PRId64,
						   (int64_t)words[word]) :
				  (size_t)snprintf(record + at, room - at, ",%" PRIu64,
						   words[word]);
		check(at < room);
	}
}

/* Makes the snapshot of the clocks that these words load. */
static void snapshot_of_words(struct tkc_snapshot *out, const uint64_t *words, uint32_t count)
{
	struct tkc_clock clock;
	struct tkc_ntp ntp;

	if (count == TKC_SAVED_WORDS) {
		check(!tkc_clock_load(&clock, words));
		tkc_clock_snapshot(out, &clock);
		return;
	}
	check(!tkc_ntp_load(&ntp, words));
	tkc_ntp_snapshot(out, &ntp);
}

/* Stores the words and the snapshot twice, over other memory. All bytes of a snapshot are written,
 * and no words but those that are counted. */
static uint32_t store(uint64_t words[WORDS], struct tkc_snapshot *out,
		      const struct tkc_session *session)
{
	uint64_t others[WORDS];
	struct tkc_snapshot other;
	uint32_t count;

	memset(words, STALE, WORDS * sizeof(*words));
	memset(others, 0, sizeof(others));
	count = tkc_session_save(words, session);
	check(count <= WORDS && tkc_session_save(others, session) == count);
	check(!memcmp(words, others, count * sizeof(*words)));
	for (uint32_t i = count; i < WORDS; i++)
		check(words[i] == UINT64_C(0x5a5a5a5a5a5a5a5a) && !others[i]);
	memset(out, STALE, sizeof(*out));
	memset(&other, 0, sizeof(other));
	tkc_session_snapshot(out, session);
	tkc_session_snapshot(&other, session);
	check(!memcmp(out, &other, sizeof(other)));
	return count;
}

/* Before the first record. */
static void check_idle(const struct tkc_snapshot *snapshot)
{
	struct tkc_snapshot wanted;
	struct tkc_counter counter;
	struct tkc_clock clock;

	check(!tkc_counter_new(&counter, 64, 1 << 24, 24));
	check(!tkc_clock_open(&clock, &counter, 0, 0, 0));
	tkc_clock_snapshot(&wanted, &clock);
	check(!memcmp(snapshot, &wanted, sizeof(wanted)));
}

static void try_saved_script(const struct saved_script *script)
{
	struct tkc_session session = tkc_session_begin(), continued = tkc_session_begin();
	uint64_t words[WORDS], again[WORDS];
	struct tkc_snapshot snapshot, other;
	char record[1024];
	struct tkc_text text;

	for (size_t i = 0; script->records[i].record; i++)
		carry_out(&session, &script->records[i]);
	check(store(words, &snapshot, &session) == script->count);
	if (!script->count) {
		check(!tkc_session_records(&session) && !tkc_session_differences(&session));
		check_idle(&snapshot);
		return;
	}
	snapshot_of_words(&other, words, script->count);
	check(!memcmp(&snapshot, &other, sizeof(other)));
	write_continued(record, sizeof(record), words, script->count);
	check(!tkc_session_record(&continued, &text, record, strlen(record)));
	check(store(again, &other, &continued) == script->count);
	check(!memcmp(again, words, script->count * sizeof(*words)));
	check(!memcmp(&snapshot, &other, sizeof(other)));
}

void try_saved_sessions(void)
{
	for (size_t i = 0; i < COUNT_OF(scripts); i++)
		try_saved_script(&scripts[i]);
}
