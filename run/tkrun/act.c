/* SPDX-License-Identifier: MIT OR Apache-2.0 */
/* act.c - lets events happen to the clocks of nodes. */
#define _GNU_SOURCE
#include "net.h"

#include <inttypes.h>
#include <stdio.h>

uint64_t true_nanos(const struct run *run)
{
	const struct shared_page *shared = run->nodes->machine.shared;
	uint64_t common = shared->kind == COUNTER_SLEEPS
				  ? run->elapsed
				  : machine_host(shared->kind) - shared->base;

	return pace_cycles(&run->truth, common);
}

/* Asks for a leap second at the end of the day, as a daemon does. */
static enum tkc_code insert_leap(struct machine *machine)
{
	struct timex timex = { 0 };
	enum tkc_code code;
	uint32_t state;
	sigset_t saved;

	machine_lock(machine, &saved);
	code = machine_adjust(machine, &timex, &state);
	timex.modes = ADJ_STATUS;
	timex.status = (timex.status | STA_INS) & ~STA_DEL;
	if (!code)
		code = machine_adjust(machine, &timex, &state);
	machine_unlock(machine, &saved);
	return code;
}

/* Lets a counter of sleeps move by its present error from now on. */
static void change_pace(const struct run *run, struct node *node)
{
	double factor = 1 + (node->error_ppm + node->wander.ppm) * 1e-6;
	uint64_t cycles = pace_cycles(&node->pace, run->elapsed);

	node->pace = pace_of((long double)node->plan.hz * factor / NANOS);
	node->pace.since = run->elapsed;
	node->pace.cycles = cycles;
	note_pace(node);
}

uint64_t before_wander(const struct run *run, uint64_t common)
{
	for (size_t i = 1; i < run->count && common != NEVER; i++)
		if (run->nodes[i].wander.next < common)
			common = run->nodes[i].wander.next;
	return common;
}

/* A counter may have passed more than one step, if it moves by reads. */
void wander_all_due(struct run *run)
{
	for (size_t i = 1; i < run->count; i++)
		while (wander_make_step(&run->nodes[i].wander, run->elapsed))
			change_pace(run, &run->nodes[i]);
}

/* The clocks stand still until another event. */
static enum tkc_code suspend(struct machine *machine, const struct event *event)
{
	enum tkc_code code = machine_command(machine, TKC_CMD_SUSPEND, 0, 0);
	struct event end = *event;

	end.nanos += (uint64_t)event->sec * NANOS + event->nsec;
	end.action = ACTION_RESUME;
	if (!code)
		events_add(&end);
	return code;
}

enum tkc_code act(struct run *run, const struct event *event)
{
	struct node *node = &run->nodes[event->node];
	struct machine *machine = &node->machine;

	switch (event->action) {
	case ACTION_STEP:
		return machine_command(machine, TKC_CMD_STEP, event->sec, event->nsec);
	case ACTION_FREQ:
		node->error_ppm = event->ppm;
		change_pace(run, node);
		return TKC_OK;
	case ACTION_SUSPEND:
		return suspend(machine, event);
	case ACTION_RESUME:
		return machine_command(machine, TKC_CMD_RESUME, event->sec, event->nsec);
	case ACTION_LEAP:
		return insert_leap(machine);
	case ACTION_PARTITION:
	case ACTION_HEAL:
		links_cut(event->node, event->other, event->action == ACTION_PARTITION);
	}
	return TKC_OK;
}

void act_all_due(struct run *run)
{
	uint64_t now = true_nanos(run);
	struct event event;
	enum tkc_code code;

	while (events_take(now, &event)) {
		code = act(run, &event);
		if (code)
			fprintf(stderr,
				"tkrun: %san event at %" PRIu64 ".%09" PRIu64 " was refused: %s\n",
				node_prefix(&run->nodes[event.node]), event.nanos / NANOS,
				event.nanos % NANOS, tkc_code_name(code));
	}
}
