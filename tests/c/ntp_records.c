/* SPDX-License-Identifier: MIT OR Apache-2.0 */
#include "ntp_records.h"
#include "check.h"

#include <inttypes.h>
#include <stdio.h>
#include <stdlib.h>
#include <string.h>

static const char *const states[] = { "ok", "ins", "del", "oop", "wait", "error" };

/* A record's word and its numbers, as their 64 bits. */
struct record {
	char word[16];
	uint64_t numbers[FIELDS];
};

static struct record parsed(const char *text)
{
	struct record record = { .word = "" };
	size_t length = strcspn(text, ",");

	check(length < sizeof(record.word));
	memcpy(record.word, text, length);
	text += length;
	for (int i = 0; *text == ',' && i < FIELDS; i++) {
		char *end;

		record.numbers[i] = text[1] == '-' ?
			(uint64_t)strtoll(text + 1, &end, 0) : strtoull(text + 1, &end, 0);
		check(end > text + 1);
		text = end;
	}
	check(!*text);
	return record;
}

static void print_code(char *line, const char *done, uint32_t code)
{
	if (code)
		snprintf(line, LINE_SIZE, "no,%s", tkc_code_name(code));
	else
		snprintf(line, LINE_SIZE, "%s", done);
}

static uint32_t make_counter(struct tkc_counter *counter, const struct record *record)
{
	const uint64_t *n = record->numbers;

	if (!strcmp(record->word, "openhz"))
		return tkc_counter_from_hz(counter, (uint32_t)n[0], n[1], (uint32_t)n[2]);
	return tkc_counter_new(counter, (uint32_t)n[0], (uint32_t)n[1], (uint32_t)n[2]);
}

static void open_clocks(struct session *session, const struct record *record, char *line)
{
	const uint64_t *n = record->numbers;
	struct tkc_ntp before = session->ntp;
	uint32_t code;

	check(!make_counter(&session->counter, record));
	if (!strcmp(record->word, "openat"))
		code = tkc_ntp_open_at(&session->ntp, &session->counter, n[3], (int64_t)n[4],
				       (uint32_t)n[5], (int64_t)n[7], (uint32_t)n[8],
				       (uint32_t)n[6]);
	else
		code = tkc_ntp_open(&session->ntp, &session->counter, n[3], (int64_t)n[4],
				    (uint32_t)n[5], (uint32_t)n[6]);
	check(!code || !memcmp(&session->ntp, &before, sizeof(before)));
	if (!code)
		session->has_signal = false;
	print_code(line, "open", code);
}

/* Counts the seconds that have begun since tkc_ntp_seconds returned `before`. */
static void count_seconds(struct session *session, int64_t before)
{
	int64_t count = tkc_ntp_seconds(&session->ntp) - before;

	check(count >= 0);
	if (session->has_signal)
		tkc_pps_seconds(&session->pps, &session->ntp, (uint64_t)count);
}

/* Begins the seconds up to a reading, and counts them. */
static uint32_t begin_seconds(struct session *session, uint64_t reading)
{
	int64_t before = tkc_ntp_seconds(&session->ntp);
	struct tkc_ntp old = session->ntp;
	uint32_t code = tkc_ntp_advance(&session->ntp, reading);

	check(!code || !memcmp(&session->ntp, &old, sizeof(old)));
	count_seconds(session, before);
	return code;
}

static bool is_asleep(const struct session *session)
{
	struct tkc_snapshot snapshot;

	tkc_ntp_snapshot(&snapshot, &session->ntp);
	return tkc_snapshot_asleep(&snapshot);
}

/* Begins the seconds up to the reading of a record, if the clocks have a signal. */
static uint32_t begin_counted(struct session *session, uint64_t reading)
{
	return session->has_signal ? begin_seconds(session, reading) : TKC_OK;
}

static int64_t monotonic_ns(const struct tkc_ntp *ntp, uint64_t reading)
{
	struct tkc_snapshot snapshot;
	struct tkc_time time;

	tkc_ntp_snapshot(&snapshot, ntp);
	check(!tkc_snapshot_get(&time, &snapshot, TKC_CLOCK_MONOTONIC, reading));
	return time.sec * 1000000000 + time.nsec;
}

static void advance(struct session *session, const struct record *record, char *line)
{
	print_code(line, "ok", begin_seconds(session, record->numbers[0]));
}

/* At the reading, MONOTONIC must be as it was by the clocks before the call. */
static void advance_late(struct session *session, const struct record *record, char *line)
{
	struct tkc_ntp before = session->ntp;
	uint64_t reading = record->numbers[0];
	uint32_t code = tkc_ntp_advance_late(&session->ntp, reading);

	if (code)
		check(!memcmp(&session->ntp, &before, sizeof(before)));
	else
		check(monotonic_ns(&session->ntp, reading) == monotonic_ns(&before, reading));
	count_seconds(session, tkc_ntp_seconds(&before));
	print_code(line, "ok", code);
}

static void tick(struct session *session, const struct record *record, char *line)
{
	struct tkc_ntp before = session->ntp;
	struct tkc_snapshot snapshot, wanted;
	uint32_t changed = 77;
	uint32_t code;

	memset(&snapshot, 0xa5, sizeof(snapshot));
	memset(&wanted, 0xa5, sizeof(wanted));
	code = tkc_ntp_tick(&snapshot, &changed, &session->ntp, record->numbers[0]);
	if (!code)
		check((tkc_ntp_seconds(&session->ntp) > tkc_ntp_seconds(&before)) ==
		      (changed & TKC_TICK_SECOND));
	if (code) {
		check(changed == 77 && !memcmp(&session->ntp, &before, sizeof(before)));
		check(!memcmp(&snapshot, &wanted, sizeof(wanted)));
		print_code(line, "", code);
		return;
	}
	tkc_ntp_snapshot(&wanted, &session->ntp);
	check(!memcmp(&snapshot, &wanted, sizeof(wanted)));
	count_seconds(session, tkc_ntp_seconds(&before));
	snprintf(line, LINE_SIZE, "tick,%" PRIu32, changed);
}

/* Informs the signal of an accepted command: FREQ is a request, whose frequency is clamped. */
static void command_signal(struct session *session, uint32_t command, int64_t number,
			   uint32_t status)
{
	struct tkc_timex request;

	if (command == TKC_CMD_SET_TIME || command == TKC_CMD_STEP || command == TKC_CMD_LEAP)
		tkc_pps_clear(&session->pps);
	if (command != TKC_CMD_FREQ)
		return;
	memset(&request, 0xa5, sizeof(request));
	request.modes = TKC_ADJ_FREQUENCY;
	request.freq = number < -32768000 ? -32768000 : number > 32768000 ? 32768000 : number;
	tkc_pps_ask(&session->pps, &request, status);
}

static void apply_command(struct session *session, const struct record *record, char *line)
{
	const uint64_t *n = record->numbers;
	uint32_t code = n[1] == TKC_CMD_RESUME ? TKC_OK : begin_counted(session, n[0]);
	uint32_t status = tkc_ntp_status(&session->ntp);

	if (!code)
		code = tkc_ntp_apply(&session->ntp, n[0], (uint32_t)n[1], (int64_t)n[2],
				     (uint32_t)n[3]);
	if (!code && session->has_signal)
		command_signal(session, (uint32_t)n[1], (int64_t)n[2], status);
	print_code(line, "ok", code);
}

/* The session keeps the counter that the clocks run over. A refused change leaves clocks that have
 * only advanced, and not even that for a reading or `first` above its mask. */
static void change_counter(struct session *session, const struct record *record, char *line)
{
	const uint64_t *n = record->numbers;
	struct tkc_counter counter, given;
	struct tkc_ntp before;
	uint32_t code;

	check(!tkc_counter_new(&counter, (uint32_t)n[1], (uint32_t)n[2], (uint32_t)n[3]));
	given = counter;
	code = is_asleep(session) ? TKC_OK : begin_counted(session, n[0]);
	before = session->ntp;
	if (!code)
		code = tkc_ntp_change_counter(&session->ntp, n[0], &counter, n[4]);
	check(!memcmp(&counter, &given, sizeof(given)));
	if (!code)
		session->counter = counter;
	else if (code != TKC_INVALID)
		check(tkc_ntp_advance(&before, n[0]) != TKC_INVALID);
	check(!code || !memcmp(&session->ntp, &before, sizeof(before)));
	print_code(line, "ok", code);
}

/* Makes the request of a record, in a struct whose other fields are 0xa5. */
static struct tkc_timex request_of(const struct record *record)
{
	const uint64_t *n = record->numbers;
	struct tkc_timex timex;

	memset(&timex, 0xa5, sizeof(timex));
	timex.modes = (uint32_t)n[1];
	timex.offset = (int64_t)n[2];
	timex.freq = (int64_t)n[3];
	timex.maxerror = (int64_t)n[4];
	timex.esterror = (int64_t)n[5];
	timex.status = (uint32_t)n[6];
	timex.constant = (int64_t)n[7];
	timex.tick = (int64_t)n[8];
	timex.sec = (int64_t)n[9];
	timex.sub = (int64_t)n[10];
	return timex;
}

/* Checks the fields of a reply that don't depend on the clock. */
static void check_fixed(const struct tkc_timex *timex, const struct tkc_timex *request)
{
	check(timex->modes == request->modes);
	check(timex->precision == 1 && timex->tolerance == 32768000);
	check(timex->modes_padding == 0xa5a5a5a5 && timex->status_padding == 0xa5a5a5a5 &&
	      timex->shift_padding == 0xa5a5a5a5);
	for (size_t i = 0; i < COUNT_OF(timex->padding); i++)
		check(timex->padding[i] == 0xa5a5a5a5);
}

/* Checks that the fields of a signal are 0. */
static void check_no_signal(const struct tkc_timex *timex)
{
	check(!timex->ppsfreq && !timex->jitter && !timex->shift && !timex->stabil);
	check(!timex->jitcnt && !timex->calcnt && !timex->errcnt && !timex->stbcnt);
}

/* Prints the fields of the signal after a reply, none of whose other fields changes. */
static void print_signal(const struct session *session, char *line, uint32_t state,
			 const struct tkc_timex *reply)
{
	struct tkc_timex timex = *reply, shown;

	tkc_pps_reply(&timex, &state, &session->pps);
	shown = timex;
	check(state < COUNT_OF(states));
	line += strlen(line);
	snprintf(line, LINE_SIZE / 2,
		 ",pps,%s,%" PRId64 ",%" PRId64 ",%" PRId32 ",%" PRId64 ",%" PRId64 ",%" PRId64
		 ",%" PRId64 ",%" PRId64,
		 states[state], timex.ppsfreq, timex.jitter, timex.shift, timex.stabil,
		 timex.jitcnt, timex.calcnt, timex.errcnt, timex.stbcnt);
	shown.ppsfreq = shown.jitter = shown.shift = 0;
	shown.stabil = shown.jitcnt = shown.calcnt = shown.errcnt = shown.stbcnt = 0;
	check(!memcmp(&shown, reply, sizeof(shown)));
}

static void print_reply(char *line, uint32_t state, const struct tkc_timex *timex)
{
	check(state < COUNT_OF(states));
	snprintf(line, LINE_SIZE,
		 "adj,%s,%" PRId64 ".%0*" PRId64 ",%" PRId64 ",%" PRId64 ",%" PRId64 ",%" PRId64
		 ",%" PRIu32 ",%" PRId64 ",%" PRId64 ",%" PRId32,
		 states[state], timex->sec, timex->status & TKC_STA_NANO ? 9 : 6, timex->sub,
		 timex->offset, timex->freq, timex->maxerror, timex->esterror, timex->status,
		 timex->constant, timex->tick, timex->tai);
}

static void ask(struct session *session, const struct record *record, char *line)
{
	struct tkc_timex request = request_of(record), timex = request, asked = request;
	uint32_t code = begin_counted(session, record->numbers[0]);
	uint32_t state = 77, status;

	status = tkc_ntp_status(&session->ntp);
	if (!code)
		code = tkc_adjtimex(&timex, &state, &session->ntp, record->numbers[0]);
	if (code) {
		check(state == 77 && !memcmp(&timex, &request, sizeof(request)));
		print_code(line, "", code);
		return;
	}
	check_fixed(&timex, &request);
	check_no_signal(&timex);
	print_reply(line, state, &timex);
	if (!session->has_signal)
		return;
	tkc_pps_ask(&session->pps, &asked, status);
	check(!memcmp(&asked, &request, sizeof(asked)));
	print_signal(session, line, state, &timex);
}

static void open_signal(struct session *session, char *line)
{
	tkc_pps_open(&session->pps);
	session->has_signal = true;
	snprintf(line, LINE_SIZE, "signal");
}

/* A pulse that is refused changes neither the clocks, whose seconds have begun, nor the
 * signal. */
static void pulse(struct session *session, const struct record *record, char *line)
{
	const uint64_t *n = record->numbers;
	uint32_t code = begin_counted(session, n[0]);
	struct tkc_ntp before = session->ntp;
	struct tkc_pps signal = session->pps;
	uint32_t refused = tkc_ntp_pulse(&session->ntp, &session->pps, n[0], (uint32_t)n[1], n[2]);

	if (refused) {
		check(!memcmp(&session->ntp, &before, sizeof(before)));
		check(!memcmp(&session->pps, &signal, sizeof(signal)));
	}
	check(!code || refused == code || refused == TKC_INVALID);
	print_code(line, "ok", refused);
}

static void get(struct session *session, const struct record *record, char *line)
{
	uint64_t reading = record->numbers[1];
	struct tkc_snapshot snapshot;
	struct tkc_time time;
	uint32_t code = begin_seconds(session, reading);

	tkc_ntp_snapshot(&snapshot, &session->ntp);
	if (!code)
		code = tkc_snapshot_get(&time, &snapshot, (uint32_t)record->numbers[0], reading);
	if (code)
		print_code(line, "", code);
	else
		snprintf(line, LINE_SIZE, "at,%" PRId64 ".%09" PRIu32, time.sec, time.nsec);
}

static void print_next(const struct session *session, char *line)
{
	uint64_t reading = 77;
	uint32_t code = tkc_ntp_next_second(&reading, &session->ntp);

	check(!code || reading == 77);
	if (code)
		print_code(line, "", code);
	else
		snprintf(line, LINE_SIZE, "next,%" PRIu64, reading);
}

/* Prints the coming leap and the numbers of the discipline, which the calls must leave. */
static void print_asked(const struct session *session, char *line)
{
	const struct tkc_ntp *ntp = &session->ntp, before = *ntp;
	uint64_t second = 77;
	int64_t by = tkc_ntp_leap(&second, ntp);

	check(by >= -1 && by <= 1 && (by || second == 77));
	snprintf(line, LINE_SIZE,
		 "asked,%" PRId64 ",%" PRIu64 ",%" PRIu32 ",%" PRId64 ",%" PRId64, by,
		 by ? second : 0, tkc_ntp_status(ntp), tkc_ntp_frequency(ntp), tkc_ntp_tick_length(ntp));
	check(!memcmp(ntp, &before, sizeof(before)));
}

static void print_front(const struct session *session, char *line)
{
	struct tkc_snapshot snapshot;

	tkc_ntp_snapshot(&snapshot, &session->ntp);
	snprintf(line, LINE_SIZE, "front,%" PRIu64, tkc_snapshot_front(&snapshot));
}

/* Prints the numbers that the state of a signal is kept in, so that each of them is compared. */
static void print_words_of_signal(const struct session *session, char *line)
{
	const uint64_t *words = session->pps.tkc_private;

	line += strlen(line);
	snprintf(line, LINE_SIZE / 2,
		 ",signal,%" PRIu32 ",%" PRIu32 ",%" PRIu32 ",%" PRIu32 ",%" PRId64 ",%" PRId64
		 ",%" PRId64 ",%" PRIu64 ",%" PRIu64 ",%" PRIu64 ",%" PRIu64 ",%" PRIu64,
		 (uint32_t)words[0], (uint32_t)(words[0] >> 32), (uint32_t)words[1],
		 (uint32_t)(words[1] >> 32), (int64_t)words[2], (int64_t)words[3],
		 (int64_t)words[4], words[5], words[6], words[7], words[8], words[9]);
}

void answer(struct session *session, const char *text, char line[LINE_SIZE])
{
	struct record record = parsed(text);

	if (!strncmp(record.word, "open", 4))
		open_clocks(session, &record, line);
	else if (!strcmp(record.word, "advance"))
		advance(session, &record, line);
	else if (!strcmp(record.word, "late"))
		advance_late(session, &record, line);
	else if (!strcmp(record.word, "tick"))
		tick(session, &record, line);
	else if (!strcmp(record.word, "apply"))
		apply_command(session, &record, line);
	else if (!strcmp(record.word, "counter"))
		change_counter(session, &record, line);
	else if (!strcmp(record.word, "adjtimex"))
		ask(session, &record, line);
	else if (!strcmp(record.word, "signal"))
		open_signal(session, line);
	else if (!strcmp(record.word, "pps"))
		pulse(session, &record, line);
	else if (!strcmp(record.word, "get"))
		get(session, &record, line);
	else if (!strcmp(record.word, "next"))
		print_next(session, line);
	else if (!strcmp(record.word, "asked"))
		print_asked(session, line);
	else if (!strcmp(record.word, "front"))
		print_front(session, line);
	else
		check(!"a record");
	if (session->has_signal)
		print_words_of_signal(session, line);
}
