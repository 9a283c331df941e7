/* SPDX-License-Identifier: MIT OR Apache-2.0 */
/*
 * Unwinds the stack at each instruction of the library's calls by the tables in .eh_frame, as a
 * profiler does. It is linked to a program that makes the calls, and steps through each of them. The
 * handler of SIGTRAP must find the caller, with its stack pointer and its registers as they were at
 * the call, and main above it. At the end it prints the number of instructions that were stepped.
 *
 *     gcc -Wl,--wrap=FUNCTION.. backtraces.c PROGRAM.c libtkcore.a
 *     gcc -Wl,--wrap=FUNCTION.. -DSESSIONS backtraces.c PROGRAM.c libtkcore_session.a
 */
#define _GNU_SOURCE

#include <inttypes.h>
#include <signal.h>
#include <stdbool.h>
#include <stdio.h>
#include <stdlib.h>
#include <string.h>
#include <ucontext.h>
#include <unistd.h>
#include <unwind.h>

enum {
	MOST_KEPT = 19,
	MOST_FRAMES = 64,
	PLACES = 1 << 16, /* for the addresses of instructions, a power of two */
};

/* The caller of the present call, if one is stepped: what an unwinder must find. */
struct caller {
	bool is_called;
	uint64_t address, stack, kept[MOST_KEPT];
};

#ifdef __aarch64__
#include "backtraces_aarch64.h"
#else
#include "backtraces_x86_64.h"
#endif

#ifdef SESSIONS
STEPPED(tkc_session_begin)
STEPPED(tkc_session_record)
STEPPED(tkc_session_records)
STEPPED(tkc_session_differences)
STEPPED(tkc_session_snapshot)
STEPPED(tkc_session_save)
STEPPED(tkc_row_parse)
#else
STEPPED(tkc_version)
STEPPED(tkc_counter_new)
STEPPED(tkc_counter_from_hz)
STEPPED(tkc_counter_from_khz)
STEPPED(tkc_counter_finest)
STEPPED(tkc_counter_numbers)
STEPPED(tkc_counter_gap)
STEPPED(tkc_counter_nanos)
STEPPED(tkc_clock_open)
STEPPED(tkc_clock_open_at)
STEPPED(tkc_clock_apply)
STEPPED(tkc_clock_change_counter)
STEPPED(tkc_clock_snapshot)
STEPPED(tkc_clock_frequency)
STEPPED(tkc_clock_tick)
STEPPED(tkc_clock_words)
STEPPED(tkc_clock_from_words)
STEPPED(tkc_clock_save)
STEPPED(tkc_clock_load)
STEPPED(tkc_snapshot_counter)
STEPPED(tkc_snapshot_front)
STEPPED(tkc_snapshot_tai)
STEPPED(tkc_snapshot_asleep)
STEPPED(tkc_snapshot_get)
STEPPED(tkc_snapshot_coarse)
STEPPED(tkc_snapshot_line)
STEPPED(tkc_snapshot_reading)
STEPPED(tkc_snapshot_step)
STEPPED(tkc_snapshot_convert)
STEPPED(tkc_snapshot_words)
STEPPED(tkc_snapshot_from_words)
#endif

int main(int argc, char **argv);

static struct caller caller;
static uint64_t stepped, distinct, calls;
static uint64_t places[PLACES]; /* the addresses of stepped instructions, by their hash */

struct search {
	bool found_caller, found_main;
	int frames;
};

static bool is_caller(struct _Unwind_Context *frame)
{
	for (int i = 0; i < KEPT; i++) {
		if (_Unwind_GetGR(frame, dwarf[i]) != caller.kept[i])
			return false;
	}
	return _Unwind_GetCFA(frame) == caller.stack;
}

static _Unwind_Reason_Code visit(struct _Unwind_Context *frame, void *context)
{
	struct search *search = context;
	uint64_t address = _Unwind_GetIP(frame);
	void *function;

	/* (by wrong tables a frame may be its own caller) */
	if (++search->frames > MOST_FRAMES)
		return _URC_END_OF_STACK;
	if (address == caller.address)
		search->found_caller = is_caller(frame);
	if (!search->found_caller)
		return _URC_NO_REASON;
	function = _Unwind_FindEnclosingFunction((void *)(uintptr_t)(address - 1));
	search->found_main = function == (void *)(uintptr_t)main;
	return search->found_main ? _URC_END_OF_STACK : _URC_NO_REASON;
}

static void count(uint64_t address)
{
	uint64_t place = address % PLACES;

	while (places[place] && places[place] != address)
		place = (place + 1) % PLACES;
	distinct += !places[place];
	places[place] = address;
	stepped++;
}

static void step(int number, siginfo_t *info, void *context)
{
	uint64_t address = address_in(context);
	struct search search = { false, false, 0 };

	(void)number;
	(void)info;
	if (is_first(&caller)) {
		begin_call(&caller, context);
		caller.is_called = true;
		calls++;
	}
	if (has_returned(&caller, context)) {
		caller.is_called = false;
		return;
	}
	count(address);
	_Unwind_Backtrace(visit, &search);
	if (!search.found_main) {
		fprintf(stderr, "backtraces: no %s is found from %#" PRIx64 "\n",
			search.found_caller ? "main" : "caller", address);
		_exit(EXIT_FAILURE);
	}
	run_instruction(address);
}

static void print_counts(void)
{
	printf("backtraces: main was found at %" PRIu64 " steps of %" PRIu64 " calls, at %" PRIu64
	       " instructions\n", stepped, calls, distinct);
}

__attribute__((constructor)) static void begin(void)
{
	struct sigaction action;

	memset(&action, 0, sizeof(action));
	action.sa_sigaction = step;
	action.sa_flags = SA_SIGINFO;
	sigaction(SIGTRAP, &action, NULL);
	prepare_steps();
	atexit(print_counts);
}
