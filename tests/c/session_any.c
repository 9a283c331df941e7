/* SPDX-License-Identifier: MIT OR Apache-2.0 */
/* Random records, at the begin or the end of a room as all that a call is passed. */
#include "session.h"

#include "random.h"
#include "rooms.h"

enum { MOST_BYTES = 400, WORDS_SIZE = TKC_NTP_SAVED_WORDS * sizeof(uint64_t) };

static const char *const samples[] = {
	"open,32,16777216,24,7,1700000000,0",
	"open,64,8388608,23,0,1483228797,500000000,250",
	"openhz,64,1000000,600,0,0,0",
	"openwords,64,16777216,24,3,30,0,30,0,30,0,30,0,0,0,10000",
	"update,10",
	"set,20,1800000000,5",
	"step,30,-1,999999999",
	"freq,50,-32768000",
	"tick,60,9000",
	"tai,40,37",
	"suspend,70",
	"resume,90,3600,1",
	"counter,100,64,33554432,24,5",
	"get,100,realtime",
	"get,100,monotonic,1000",
	"get,100,boottime_coarse",
	"adjtimex,2,8209,-499999999,0,0,0,8209,0,0,0,0",
	"adjtimex,3,0,0,0,0,0,0,0,0,0,0",
};

/* Writes a random record: a sample with up to three other bytes and perhaps cut, or any bytes.
 * Returns its length. */
static size_t write_record(char bytes[MOST_BYTES])
{
	const char *sample = samples[below(COUNT_OF(samples))];
	size_t length = strlen(sample);

	if (one_in(8)) {
		length = below(MOST_BYTES);
		for (size_t i = 0; i < length; i++)
			bytes[i] = one_in(2) ? (char)any() : ",0123456789-"[below(12)];
		return length;
	}
	memcpy(bytes, sample, length);
	for (uint64_t n = below(4); n > 0; n--)
		bytes[below(length)] = one_in(4) ? (char)any() : "0123456789-,\"\n"[below(14)];
	return one_in(8) ? below(length + 1) : length;
}

static bool is_code(uint32_t code)
{
	return code == TKC_OK || (TKC_NOT_PLAIN <= code && code <= TKC_BAD_NUMBER) ||
	       (TKC_BAD_BITS <= code && code <= TKC_BAD_ADJUST);
}

/* Parses the record in its room. Returns the code. */
static uint32_t parse(const void *record, size_t length)
{
	struct tkc_row before, *row = fill(rooms.ntp, &before, sizeof(before));
	uint32_t code = tkc_row_parse(row, any(), record, length);

	check(is_code(code) && code != TKC_BAD_OPENING && code != TKC_TOO_MANY);
	if (code)
		check(!memcmp(row, &before, sizeof(before)));
	else
		check(row->kind <= TKC_ROW_REQUEST && row->command <= TKC_CMD_RESUME &&
		      row->has_value <= 1 && (row->has_value || !row->value));
	return code;
}

/* Stores words and a snapshot of a session in rooms. */
static void try_stores(const struct tkc_session *session)
{
	uint64_t before[TKC_NTP_SAVED_WORDS], *words = fill(rooms.words, before, WORDS_SIZE);
	struct tkc_snapshot *snapshot = place(rooms.snapshot, sizeof(*snapshot));
	uint32_t count = tkc_session_save(words, session);

	check(count == (tkc_session_records(session) ? count : 0));
	check(!memcmp(words + count, before + count, WORDS_SIZE - count * sizeof(*words)));
	tkc_session_snapshot(snapshot, session);
	check(!tkc_session_records(session) || tkc_snapshot_front(snapshot) == words[0]);
}

/* Carries out a random record. */
static void try_record(struct tkc_session *of)
{
	char bytes[MOST_BYTES];
	size_t length = write_record(bytes);
	const void *record = put(rooms.stamps, bytes, length);
	struct tkc_session *session = put(rooms.clock, of, sizeof(*of));
	struct tkc_text before, *text = fill(rooms.out, &before, sizeof(before));
	uint64_t records = tkc_session_records(of);
	uint32_t code = tkc_session_record(session, text, record, length);

	check(is_code(code) && code != TKC_TOO_MANY && text->length <= TKC_TEXT_ROOM);
	check(!memcmp(text->bytes + text->length, before.bytes + text->length,
		      TKC_TEXT_ROOM - text->length));
	check(!memcmp(record, bytes, length));
	if (code || !length)
		check(!memcmp(session, of, sizeof(*of)));
	else
		check(tkc_session_records(session) == records + 1);
	if (records)
		check(parse(record, length) == (length ? code : TKC_BAD_WORD));
	try_stores(session);
	memcpy(of, session, sizeof(*of));
}

void try_any_records(uint64_t count)
{
	struct tkc_session session = tkc_session_begin();

	for (uint64_t i = 0; i < count; i++) {
		if (one_in(50))
			session = tkc_session_begin();
		try_record(&session);
	}
}
