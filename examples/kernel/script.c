/* SPDX-License-Identifier: MIT OR Apache-2.0 */
/* script.c - parses the scripts of tkcore whose clocks aren't steered. */
#include "script.h"

#include <stdlib.h>

enum { FIRST_ROOM = 1024 };

static const char NO_OPENING[] = "not a valid opening";
static const char NO_WORD[] = "unknown word";
static const char NO_FIELDS[] = "wrong number of fields";
static const char NO_NUMBER[] = "not a number in range";
static const char NO_MEMORY[] = "out of memory";

/* What a field contains, named for the variable that stores it. */
enum kind { READING, NUMBER, NSEC, CLOCK, VALUE };

/* A record after the opening: its word, and the fields after the word. A read may have one more. */
struct shape {
	const char *word;
	bool is_read;
	uint32_t command;
	size_t count;
	enum kind kinds[3];
};

static const struct shape SHAPES[] = {
	{ "update", false, TKC_CMD_UPDATE, 1, { READING } },
	{ "set", false, TKC_CMD_SET_TIME, 3, { READING, NUMBER, NSEC } },
	{ "step", false, TKC_CMD_STEP, 3, { READING, NUMBER, NSEC } },
	{ "freq", false, TKC_CMD_FREQ, 2, { READING, NUMBER } },
	{ "tick", false, TKC_CMD_TICK, 2, { READING, NUMBER } },
	{ "tai", false, TKC_CMD_TAI_OFFSET, 2, { READING, NUMBER } },
	{ "suspend", false, TKC_CMD_SUSPEND, 1, { READING } },
	{ "resume", false, TKC_CMD_RESUME, 3, { READING, NUMBER, NSEC } },
	{ "get", true, 0, 2, { READING, CLOCK, VALUE } },
};

static const struct {
	const char *word;
	uint32_t clock;
} CLOCKS[] = {
	{ "realtime", TKC_CLOCK_REALTIME },
	{ "monotonic", TKC_CLOCK_MONOTONIC },
	{ "boottime", TKC_CLOCK_BOOTTIME },
	{ "tai", TKC_CLOCK_TAI },
	{ "realtime_coarse", TKC_CLOCK_REALTIME_COARSE },
	{ "monotonic_coarse", TKC_CLOCK_MONOTONIC_COARSE },
	{ "monotonic_raw", TKC_CLOCK_MONOTONIC_RAW },
};

#define COUNT_OF(array) (sizeof(array) / sizeof(*(array)))

/* How a script opens its clocks. */
enum opening_kind { OPENS, OPENS_BY_HZ, OPENS_BY_WORDS, OPENING_KINDS };

/* The word of each kind, and the number of fields with it. */
static const struct {
	const char *word;
	size_t count;
} OPENINGS[OPENING_KINDS] = {
	[OPENS] = { "open", 7 },
	[OPENS_BY_HZ] = { "openhz", 7 },
	[OPENS_BY_WORDS] = { "openwords", 16 },
};

/* The most commands that running clocks may have accepted. */
static const uint64_t FRONT_MOST = (uint64_t)1 << 62;

/* `counter` is bits, mult and shift, or bits, hz and maxsec. The numbers of running clocks are
 * those of tkc_clock_words. */
struct opening {
	enum opening_kind kind;
	uint32_t counter[3];
	uint64_t reading;
	int64_t sec;
	uint32_t nsec;
	uint64_t words[TKC_WORDS];
	int64_t frequency, tick;
};

static const char *parse_clock(const struct field *field, uint32_t *clock)
{
	for (size_t i = 0; i < COUNT_OF(CLOCKS); i++) {
		if (is_word(field, CLOCKS[i].word)) {
			*clock = CLOCKS[i].clock;
			return NULL;
		}
	}
	return NO_WORD;
}

static const char *parse_field(const struct field *field, enum kind kind,
			       struct row *row)
{
	bool is_number = true;

	switch (kind) {
	case READING:
		is_number = parse_u64(field, &row->reading);
		break;
	case NUMBER:
		is_number = parse_i64(field, &row->number);
		break;
	case NSEC:
		is_number = parse_u32(field, &row->nsec);
		break;
	case CLOCK:
		return parse_clock(field, &row->clock);
	case VALUE:
		row->has_value = true;
		is_number = parse_u64(field, &row->value);
		break;
	}
	return is_number ? NULL : NO_NUMBER;
}

static const struct shape *find_shape(const struct field *word)
{
	for (size_t i = 0; i < COUNT_OF(SHAPES); i++) {
		if (is_word(word, SHAPES[i].word))
			return &SHAPES[i];
	}
	return NULL;
}

static const char *parse_row(const struct record *record, struct row *row)
{
	const struct shape *shape = find_shape(&record->fields[0]);
	const char *wrong = NULL;
	size_t count;

	if (!shape)
		return NO_WORD;
	count = record->count - 1;
	if (count != shape->count && !(shape->is_read && count == shape->count + 1))
		return NO_FIELDS;
	*row = (struct row){ .is_read = shape->is_read, .command = shape->command };
	for (size_t i = 0; i < count && !wrong; i++)
		wrong = parse_field(&record->fields[i + 1], shape->kinds[i],
				    row);
	return wrong;
}

static enum opening_kind find_opening(const struct field *word)
{
	enum opening_kind kind = OPENS;

	while (kind < OPENING_KINDS && !is_word(word, OPENINGS[kind].word))
		kind++;
	return kind;
}

/* Parses the time of an opening. Returns whether its fields are numbers. */
static bool parse_start(const struct field *fields, struct opening *opening)
{
	return parse_u64(&fields[0], &opening->reading) &&
	       parse_i64(&fields[1], &opening->sec) &&
	       parse_u32(&fields[2], &opening->nsec);
}

/* Parses the numbers of running clocks instead. */
static bool parse_words(const struct field *fields, struct opening *opening)
{
	for (size_t i = 0; i < TKC_WORDS; i++) {
		if (!parse_u64(&fields[i], &opening->words[i]))
			return false;
	}
	return parse_i64(&fields[TKC_WORDS], &opening->frequency) &&
	       parse_i64(&fields[TKC_WORDS + 1], &opening->tick);
}

static const char *parse_opening(const struct record *record,
				 struct opening *opening)
{
	const struct field *fields = record->fields;
	bool are_numbers;

	opening->kind = find_opening(&fields[0]);
	if (opening->kind == OPENING_KINDS)
		return NO_OPENING;
	if (record->count != OPENINGS[opening->kind].count)
		return NO_FIELDS;
	for (size_t i = 0; i < COUNT_OF(opening->counter); i++) {
		if (!parse_u32(&fields[i + 1], &opening->counter[i]))
			return NO_NUMBER;
	}
	are_numbers = opening->kind == OPENS_BY_WORDS
			      ? parse_words(&fields[4], opening)
			      : parse_start(&fields[4], opening);
	return are_numbers ? NULL : NO_NUMBER;
}

static uint32_t open_counter(const struct opening *opening,
			     struct tkc_counter *counter)
{
	const uint32_t *numbers = opening->counter;

	if (opening->kind == OPENS_BY_HZ)
		return tkc_counter_from_hz(counter, numbers[0], numbers[1],
					   numbers[2]);
	return tkc_counter_new(counter, numbers[0], numbers[1], numbers[2]);
}

/* Opens the clocks. Returns a fault if the library refuses the numbers. */
static const char *open_clocks(const struct opening *opening,
			       struct script *script)
{
	uint32_t code = open_counter(opening, &script->counter);

	if (!code && opening->kind != OPENS_BY_WORDS)
		code = tkc_clock_open(&script->clock, &script->counter,
				      opening->reading, opening->sec,
				      opening->nsec);
	else if (!code && opening->words[0] > FRONT_MOST)
		code = TKC_BAD_WORDS;
	else if (!code)
		code = tkc_clock_from_words(&script->clock, &script->counter,
					    opening->words, opening->frequency,
					    opening->tick);
	return code ? NO_OPENING : NULL;
}

static const char *open_script(struct script *script,
			       const struct record *record)
{
	struct opening opening;
	const char *wrong = parse_opening(record, &opening);

	return wrong ? wrong : open_clocks(&opening, script);
}

/* Makes room for one more row. Returns false if memory is refused. */
static bool reserve_row(struct script *script, size_t *room)
{
	struct row *rows;

	if (script->count < *room)
		return true;
	*room = *room ? *room * 2 : FIRST_ROOM;
	rows = realloc(script->rows, *room * sizeof(*rows));
	if (rows)
		script->rows = rows;
	return rows;
}

static const char *parse_rows(struct script *script, struct reader *reader,
			      struct record *record)
{
	const char *wrong = NULL;
	size_t room = 0;

	while (!wrong && read_record(reader, record)) {
		if (!reserve_row(script, &room))
			return NO_MEMORY;
		wrong = parse_row(record, &script->rows[script->count]);
		script->count += !wrong;
	}
	return wrong;
}

bool script_parse(struct script *script, char *text, size_t length,
		  struct fault *fault)
{
	struct reader reader = { text, text + length };
	struct record record = { 0 };
	const char *wrong;

	*script = (struct script){ 0 };
	if (length > SCRIPT_LIMIT)
		wrong = "larger than 16777216 bytes";
	else if (!read_record(&reader, &record))
		wrong = "no record";
	else
		wrong = open_script(script, &record);
	if (!wrong)
		wrong = parse_rows(script, &reader, &record);
	if (!wrong)
		return true;
	*fault = (struct fault){ wrong == NO_MEMORY ? 0 : record.number,
				 wrong };
	script_free(script);
	return false;
}

void script_free(struct script *script)
{
	free(script->rows);
	*script = (struct script){ 0 };
}

const char *script_clock_word(uint32_t clock)
{
	for (size_t i = 0; i < COUNT_OF(CLOCKS); i++) {
		if (CLOCKS[i].clock == clock)
			return CLOCKS[i].word;
	}
	return "unknown";
}
