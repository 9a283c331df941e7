/* SPDX-License-Identifier: MIT OR Apache-2.0 */
/* texts.c - writes records of scripts as text. */
#include "texts.h"

#include <inttypes.h>

static const struct {
	const char *word;
	int numbers;
} COMMANDS[] = {
	[TKC_CMD_UPDATE] = { "update", 0 },
	[TKC_CMD_SET_TIME] = { "set", 2 },
	[TKC_CMD_STEP] = { "step", 2 },
	[TKC_CMD_FREQ] = { "freq", 1 },
	[TKC_CMD_TICK] = { "tick", 1 },
	[TKC_CMD_TAI_OFFSET] = { "tai", 1 },
	[TKC_CMD_SUSPEND] = { "suspend", 0 },
	[TKC_CMD_RESUME] = { "resume", 2 },
};

static const char *const CLOCKS[] = {
	[TKC_CLOCK_REALTIME] = "realtime",
	[TKC_CLOCK_MONOTONIC] = "monotonic",
	[TKC_CLOCK_BOOTTIME] = "boottime",
	[TKC_CLOCK_TAI] = "tai",
	[TKC_CLOCK_REALTIME_COARSE] = "realtime_coarse",
	[TKC_CLOCK_MONOTONIC_COARSE] = "monotonic_coarse",
	[TKC_CLOCK_MONOTONIC_RAW] = "monotonic_raw",
};

const char *text_clock(uint32_t clock)
{
	bool is_known = clock < sizeof(CLOCKS) / sizeof(*CLOCKS) && CLOCKS[clock];

	return is_known ? CLOCKS[clock] : "unknown";
}

int text_read(FILE *file, uint64_t reading, uint32_t clock, const struct tkc_time *value)
{
	const char *word = text_clock(clock);

	if (!value)
		return fprintf(file, "get,%" PRIu64 ",%s", reading, word);
	return fprintf(file, "get,%" PRIu64 ",%s,%" PRIu64, reading, word,
		       (uint64_t)value->sec * NANOS + value->nsec);
}

int text_command(FILE *file, uint64_t reading, uint32_t command, int64_t number, uint32_t nsec)
{
	int numbers = COMMANDS[command].numbers;
	int bytes = fprintf(file, "%s,%" PRIu64, COMMANDS[command].word, reading);

	if (numbers > 0)
		bytes += fprintf(file, ",%" PRId64, number);
	if (numbers > 1)
		bytes += fprintf(file, ",%" PRIu32, nsec);
	return bytes;
}

int text_request(FILE *file, uint64_t reading, const struct asked_words *asked)
{
	return fprintf(file,
		       "adjtimex,%" PRIu64 ",%" PRIu32 ",%" PRId64 ",%" PRId64 ",%" PRId64
		       ",%" PRId64 ",%" PRIu32 ",%" PRId64 ",%" PRId64 ",%" PRId64 ",%" PRId64,
		       reading, (uint32_t)asked->modes, asked->offset, asked->freq,
		       asked->maxerror, asked->esterror, (uint32_t)asked->status, asked->constant,
		       asked->tick, asked->sec, asked->sub);
}

const char *text_refusal(uint32_t code)
{
	switch (code) {
	case TKC_FULL:
		return "full";
	case TKC_ASLEEP:
		return "asleep";
	case TKC_AWAKE:
		return "awake";
	case TKC_INVALID:
		return "invalid";
	case TKC_BEHIND:
		return "behind";
	case TKC_RANGE:
		return "range";
	default:
		return "unknown";
	}
}
