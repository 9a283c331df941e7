/* SPDX-License-Identifier: MIT OR Apache-2.0 */
/*
 * Prints the report of the tkcore script on standard input. Each command and
 * each read of the script is one call of the library, and the parser is that of
 * examples/kernel. A script that changes the counter, or whose clocks are
 * steered, has a fault here.
 *
 * The library keeps no journal, so no command is refused because a journal is
 * full. So the report equals the report of `tkcore replay --keep N`.
 */
#define _POSIX_C_SOURCE 200809L

#include "script.h"

#include <inttypes.h>
#include <stdio.h>
#include <stdlib.h>
#include <time.h>

static const char *refusal_word(uint32_t code)
{
	switch (code) {
	case TKC_FULL:
		return "full";
	case TKC_ASLEEP:
		return "asleep";
	case TKC_AWAKE:
		return "awake";
	case TKC_INVALID:
		return "invalid";
	case TKC_BEHIND:
		return "behind";
	case TKC_RANGE:
		return "range";
	default:
		return "unknown";
	}
}

static void print_refusal(uint32_t code)
{
	printf("no,%s\n", refusal_word(code));
}

static void print_time(const struct tkc_time *time)
{
	printf("%" PRId64 ".%09" PRIu32, time->sec, time->nsec);
}

/* Prints the date and time in UTC. The year has four digits. */
static void print_utc(const struct tkc_time *time)
{
	time_t sec = time->sec;
	char text[sizeof("YYYY-MM-DDThh:mm:ss")];
	struct tm utc;

	if (!gmtime_r(&sec, &utc) ||
	    !strftime(text, sizeof(text), "%Y-%m-%dT%H:%M:%S", &utc))
		return;
	printf(",%s.%09" PRIu32 "Z", text, time->nsec);
}

/* Prints the counter: a cycle lasts mult / 2^shift ns. */
static void print_opening(const struct tkc_counter *counter)
{
	uint32_t bits, mult, shift;

	tkc_counter_numbers(&bits, &mult, &shift, counter);
	printf("open,%" PRIu32 ",%" PRIu32 ",%" PRIu32 "\n", bits, mult, shift);
}

/* Prints the line of a read. Returns whether the clock has the value that the row expects, or the
 * row expects none. */
static bool print_read(const struct tkc_snapshot *snapshot,
		       const struct row *row)
{
	struct tkc_time time;
	uint32_t code;

	code = tkc_snapshot_get(&time, snapshot, row->clock, row->reading);
	if (code) {
		print_refusal(code);
		return !row->has_value;
	}
	printf("at,%s,", script_clock_word(row->clock));
	print_time(&time);
	if (row->clock == TKC_CLOCK_REALTIME ||
	    row->clock == TKC_CLOCK_REALTIME_COARSE)
		print_utc(&time);
	putchar('\n');
	return !row->has_value ||
	       row->value == (uint64_t)time.sec * 1000000000 + time.nsec;
}

/* Prints the number of accepted commands, and MONOTONIC at the last one. */
static void print_accepted(const struct tkc_snapshot *snapshot)
{
	uint64_t words[TKC_WORDS];
	struct tkc_time time;

	tkc_snapshot_words(words, snapshot);
	if (tkc_snapshot_get(&time, snapshot, TKC_CLOCK_MONOTONIC, words[1]))
		return; /* unreachable: MONOTONIC has a time after each command */
	printf("ok,%" PRIu64 ",", words[0]);
	print_time(&time);
	putchar('\n');
}

static void run_row(struct tkc_clock *clock, struct tkc_snapshot *snapshot,
		    const struct row *row, size_t record)
{
	uint32_t code;

	if (row->is_read) {
		if (!print_read(snapshot, row))
			printf("differs,%zu,%" PRIu64 "\n", record, row->value);
		return;
	}
	code = tkc_clock_apply(clock, row->reading, row->command, row->number,
			       row->nsec);
	if (code) {
		print_refusal(code);
		return;
	}
	tkc_clock_snapshot(snapshot, clock);
	print_accepted(snapshot);
}

static void run(struct script *script)
{
	struct tkc_snapshot snapshot;

	tkc_clock_snapshot(&snapshot, &script->clock);
	print_opening(&script->counter);
	for (size_t i = 0; i < script->count; i++)
		run_row(&script->clock, &snapshot, &script->rows[i], i + 2);
}

static int fail(const char *text)
{
	fprintf(stderr, "tkcore: %s\n", text);
	return EXIT_FAILURE;
}

static int fail_script(const struct fault *fault)
{
	if (fault->record)
		fprintf(stderr, "tkcore: script: record %zu: %s\n",
			fault->record, fault->text);
	else
		fprintf(stderr, "tkcore: script: %s\n", fault->text);
	return EXIT_FAILURE;
}

static int report(char *text, size_t length)
{
	struct script script;
	struct fault fault;

	if (!script_parse(&script, text, length, &fault))
		return fail_script(&fault);
	run(&script);
	script_free(&script);
	if (fflush(stdout) || ferror(stdout))
		return fail("cannot write");
	return EXIT_SUCCESS;
}

int main(void)
{
	/* One byte more than the limit shows that a script is too large. */
	char *text = malloc(SCRIPT_LIMIT + 1);
	size_t length;
	int status;

	if (!text)
		return fail("out of memory");
	length = fread(text, 1, SCRIPT_LIMIT + 1, stdin);
	status = ferror(stdin) ? fail("cannot read") : report(text, length);
	free(text);
	return status;
}
