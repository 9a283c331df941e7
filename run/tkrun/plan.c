/* SPDX-License-Identifier: MIT OR Apache-2.0 */
/* plan.c - opens the clocks, and carries out the orders of --script. */
#define _GNU_SOURCE
#include "plan.h"

#include "clocks/rows.h"
#include "clocks/saved_words.h"
#include "script/script.h"

#include <errno.h>
#include <math.h>
#include <stdio.h>
#include <stdlib.h>
#include <string.h>

static double rate_of(const struct tkc_counter *counter)
{
	uint32_t bits, mult, shift;

	tkc_counter_numbers(&bits, &mult, &shift, counter);
	return ldexp(1e9, (int)shift) / mult;
}

static bool open_clock(const struct plan *plan, struct tkc_clock *clock)
{
	return !tkc_clock_open_at(clock, &plan->counter, plan->first,
				  plan->open_sec, plan->open_nsec,
				  plan->uptime_sec, plan->uptime_nsec);
}

/* The discipline adds no refusals. */
void plan_open_clock(const struct plan *plan, struct tkc_clock *clock)
{
	if (!open_clock(plan, clock))
		abort();
}

/* Stores how saved clocks were opened. Returns false if they aren't as just opened. */
static bool find_opening(struct plan *plan, const uint64_t *words)
{
	uint64_t opened[TKC_SAVED_WORDS], real;
	struct tkc_clock clock;

	plan->first = words[SAVED_LAST];
	plan->uptime_sec = (int64_t)words[SAVED_SECOND];
	plan->uptime_nsec = (uint32_t)(words[SAVED_PART] >> words[SAVED_SHIFT]);
	real = words[SAVED_REAL_OFFSET] + words[SAVED_SECOND] * NANOS +
	       plan->uptime_nsec;
	plan->open_sec = (int64_t)(real / NANOS);
	plan->open_nsec = (uint32_t)(real % NANOS);
	if (!open_clock(plan, &clock))
		return false;
	tkc_clock_save(opened, &clock);
	return !memcmp(words, opened, sizeof(opened));
}

__attribute__((noreturn)) static void fail_script(const struct fault *fault)
{
	if (!fault->record)
		fail(STATUS_WRONG, "--script: %s", fault->text);
	fail(STATUS_WRONG, "--script: record %zu: %s", fault->record,
	     fault->text);
}

/* Opens the clocks with their discipline. Returns false if a number is refused. */
static bool open_steered(struct plan *plan)
{
	return !tkc_ntp_open_at(&plan->clocks, &plan->counter, plan->first,
				plan->open_sec, plan->open_nsec,
				plan->uptime_sec, plan->uptime_nsec,
				plan->ticks);
}

/* Returns whether the clocks have the discipline of a script's first record. */
static bool has_discipline(const struct plan *plan, const struct script *script)
{
	uint64_t words[TKC_NTP_SAVED_WORDS];

	tkc_ntp_save(words, &plan->clocks);
	return !memcmp(words + TKC_SAVED_WORDS, script->words + TKC_SAVED_WORDS,
		       (script->word_count - TKC_SAVED_WORDS) * sizeof(*words));
}

bool plan_open_script(struct plan *plan, const struct script *script)
{
	const uint64_t *words = script->words;

	if (tkc_counter_new(&plan->counter, (uint32_t)words[SAVED_BITS],
			    (uint32_t)words[SAVED_MULT], (uint32_t)words[SAVED_SHIFT]))
		return false; /* unreachable: the script's clocks have this counter */
	plan->hz = rate_of(&plan->counter);
	plan->is_steered = script->word_count == TKC_NTP_SAVED_WORDS;
	plan->ticks = plan->is_steered ? (uint32_t)words[SAVED_HZ] : TICKS_HZ;
	return find_opening(plan, words) && open_steered(plan) &&
	       has_discipline(plan, script);
}

static void read_script(struct plan *plan, const char *path)
{
	struct script script = { 0 };
	struct fault fault;
	size_t length;
	char *text = script_read(path, &length);

	if (!text)
		fail(STATUS_WRONG, "--script: cannot read '%s': %s", path, strerror(errno));
	if (!script_parse(&script, text, length, &fault))
		fail_script(&fault);
	if (!plan_open_script(plan, &script))
		fail(STATUS_WRONG,
		     "--script: record 1: tkrun can't continue running clocks");
	plan->orders = script.orders;
	plan->count = script.count;
	plan->requests = script.requests;
	free(text);
}

static bool is_same(const struct tkc_counter *a, const struct tkc_counter *b)
{
	uint32_t numbers[2][3];

	tkc_counter_numbers(&numbers[0][0], &numbers[0][1], &numbers[0][2], a);
	tkc_counter_numbers(&numbers[1][0], &numbers[1][1], &numbers[1][2], b);
	return !memcmp(numbers[0], numbers[1], sizeof(numbers[0]));
}

/* Returns the ns of REALTIME at which clocks start that aren't ahead. */
static uint64_t start_of(const struct plan *first)
{
	return first ? (uint64_t)first->open_sec * NANOS + first->open_nsec
		     : host_nanos(CLOCK_REALTIME);
}

static void set_start(struct plan *plan, const struct options *options,
		      const struct plan *first)
{
	double ahead = floor(options->ahead);
	uint64_t now = start_of(first) +
		       (uint64_t)llround((options->ahead - ahead) * 1e9);

	plan->open_sec = (int64_t)(now / NANOS) + (int64_t)ahead;
	plan->open_nsec = (uint32_t)(now % NANOS);
	if (options->has_start) {
		plan->open_sec = options->start_sec;
		plan->open_nsec = options->start_nsec;
	}
	plan->uptime_sec = options->uptime_sec;
	plan->uptime_nsec = options->uptime_nsec;
	if (options->has_uptime &&
	    (plan->open_sec < plan->uptime_sec ||
	     (plan->open_sec == plan->uptime_sec &&
	      plan->open_nsec < plan->uptime_nsec)))
		fail(STATUS_WRONG,
		     "--uptime: the clocks would have run before 1970");
}

void plan_make(struct plan *plan, const struct options *options, double hz,
	       const struct plan *first)
{
	struct tkc_counter counter;

	*plan = (struct plan){ .hz = options->hz ? (double)options->hz
						 : round(hz),
			       .ticks = TICKS_HZ };
	if (tkc_counter_from_hz(&counter, options->bits, (uint64_t)plan->hz,
				options->maxsec))
		fail(STATUS_WRONG,
		     "no counter has %u bits and %.0f Hz with a maxsec of %u",
		     options->bits, plan->hz, options->maxsec);
	plan->counter = counter;
	if (options->script)
		read_script(plan, options->script);
	if (options->describes_counter && !is_same(&counter, &plan->counter))
		fail(STATUS_WRONG,
		     "--script opens another counter than the options describe");
	if (!options->script)
		set_start(plan, options, first);
	if (!open_steered(plan))
		fail(STATUS_WRONG, "the clocks can't start at second %lld",
		     (long long)plan->open_sec);
}

uint64_t plan_left(const struct plan *plan, const struct machine *machine)
{
	uint64_t reading = machine_reading(machine->shared), due;

	if (plan->next == plan->count)
		return NEVER;
	due = plan->orders[plan->next].reading;
	if (is_past(machine->shared, reading, due))
		return 0;
	return (due - reading) & machine->shared->mask;
}

/* Applies an order, or makes its request. */
static void run_order(const struct plan *plan, const struct order *order,
		      struct machine *machine)
{
	uint32_t state = 0;

	if (order->command == ROW_REQUEST)
		machine_adjust(machine, &plan->requests[order->number], &state);
	else
		machine_apply(machine, order, 1);
}

void plan_run(struct plan *plan, struct machine *machine)
{
	while (!plan_left(plan, machine))
		run_order(plan, &plan->orders[plan->next++], machine);
}
