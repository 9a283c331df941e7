/* SPDX-License-Identifier: MIT OR Apache-2.0 */
/*
 * tkrun.c - tkrun [OPTIONS] -- PROGRAM ARGS: runs a program, and all that it starts, on
 * one set of clocks. docs/RUN.md explains it, docs/tkrun.1 lists the options.
 *
 * tkrun makes the clocks in shared memory, starts the program with libtkrun.so
 * loaded, and brings the clocks forward until no process is left.
 */
#define _GNU_SOURCE
#include "grant.h"
#include "net.h"
#include "seeds.h"
#include "space.h"
#include "processes/coverage.h"
#include "processes/uncovered.h"
#include "record/merge.h"
#include "static/random.h"

#include <errno.h>
#include <fcntl.h>
#include <inttypes.h>
#include <stdio.h>
#include <stdlib.h>
#include <string.h>
#include <sys/prctl.h>
#include <sys/wait.h>
#include <unistd.h>

enum {
	CHECK_NANOS = 100000000, /* the span between two checks of processes */
	NAP_NANOS = 50000,	 /* between two checks of waiting threads */
};

/* Brings the clocks of a node forward, whose counter runs. Returns the host's ns until the next
 * time. */
static uint64_t step_node(struct node *node)
{
	static const struct order update = { .command = TKC_CMD_UPDATE };
	struct machine *machine = &node->machine;
	const struct shared_page *shared = machine->shared;
	sigset_t saved;
	double order;

	machine_lock(machine, &saved);
	plan_run(&node->plan, machine);
	if (!machine_is_asleep(machine))
		machine_apply(machine, &update, 1);
	machine_unlock(machine, &saved);
	wake_changed(node);
	order = (double)plan_left(&node->plan, machine) *
		shared->nanos_per_cycle;
	return order < (double)shared->update_nanos ? (uint64_t)order
						    : shared->update_nanos;
}

/* Returns the host's ns until the next event, or NEVER. */
static uint64_t nanos_to_event(const struct run *run)
{
	uint64_t next = events_next(), now;

	if (next == NEVER)
		return NEVER;
	now = true_nanos(run);
	return next < now ? 0 : (uint64_t)((double)(next - now) / run->nodes->machine.shared->speed);
}

/* Brings all clocks forward. Returns the host's ns until the next time. */
static uint64_t step_clocks(struct run *run)
{
	uint64_t least = NEVER, left;

	if (run->nodes->machine.shared->kind == COUNTER_SLEEPS) {
		if (move_counter(run))
			sleepers_wake();
		return NAP_NANOS;
	}
	for (size_t i = 0; i < run->count; i++) {
		left = step_node(&run->nodes[i]);
		least = left < least ? left : least;
	}
	while (run->count > 1 && control_serve(run))
		;
	act_all_due(run);
	left = nanos_to_event(run);
	return left < least ? left : least;
}

static void check_now_and_then(struct run *run)
{
	uint64_t now = host_nanos(CLOCK_MONOTONIC);

	if (now - run->checked < CHECK_NANOS)
		return;
	run->checked = now;
	coverage_check(&run->tree, run->listener < 0);
}

static void note_child(struct run *run, pid_t child, int status)
{
	if (WIFSTOPPED(status)) {
		exec_stopped(child, status);
	} else if (child == run->child) {
		run->status = WIFEXITED(status) ? WEXITSTATUS(status)
						: 128 + WTERMSIG(status);
		run->child = 0;
	}
}

/* Passes a signal on to the program, or to what it left when it ended: another
 * process may have its number then. */
static void pass_signal(struct run *run, int number)
{
	if (run->child)
		kill(run->child, number);
	else
		tree_signal(&run->tree, number);
}

/* Waits for all processes, and passes SIGHUP on. The program's status is tkrun's. */
static void drive(struct run *run, const sigset_t *signals)
{
	struct timespec wait;
	uint64_t left;
	int status;
	pid_t ended;

	while (!ending_is_over()) {
		left = step_clocks(run);
		serve_execs(run);
		while ((ended = waitpid(-1, &status, WNOHANG | __WALL)) > 0)
			note_child(run, ended, status);
		if (ended < 0 && errno == ECHILD)
			return;
		check_now_and_then(run);
		wait = span_of(left);
		if (sigtimedwait(signals, NULL, &wait) == SIGHUP)
			pass_signal(run, SIGHUP);
	}
}

/* Empties the log, and makes its name absolute: a program may change its
 * folder. */
static void start_log(struct options *options)
{
	FILE *file = fopen(options->log, "we");
	char *full = file ? realpath(options->log, NULL) : NULL;

	if (!full)
		fail(STATUS_WRONG, "--log: cannot write '%s': %s", options->log,
		     strerror(errno));
	fclose(file);
	if (strlen(full) >= sizeof(((struct log *)NULL)->path))
		fail(STATUS_WRONG, "--log: '%s' is too long a name", full);
	options->log = full;
}

/* Lets the nodes write to the log. Their lines begin with their names. */
static void share_log(struct run *run)
{
	for (size_t i = 0; i < run->count; i++) {
		struct log *log = &run->nodes[i].machine.control->log;

		strcpy(log->path, run->nodes->options.log);
		if (run->nodes[i].options.name)
			strcpy(log->node, run->nodes[i].options.name);
	}
}

/* Applies the script's orders at the opening's reading, so that the program
 * finds them done. */
static void run_first_orders(struct node *node)
{
	sigset_t saved;

	machine_lock(&node->machine, &saved);
	plan_run(&node->plan, &node->machine);
	machine_unlock(&node->machine, &saved);
}

/* Lets no file of tkrun get the number of a standard one that was closed: messages
 * would be written to it. The program doesn't inherit these files. */
static void hold_standard_files(void)
{
	int file;

	do {
		file = open("/dev/null", O_RDWR | O_CLOEXEC);
	} while (file >= 0 && file <= STDERR_FILENO);
	if (file >= 0)
		close(file);
}

/* Lets the library and the image look at each read if it costs something or is counted, or else at
 * those that are recorded. */
static void look_at_reads(const struct node *node)
{
	const struct options *options = &node->options;
	struct control *control = node->machine.control;
	bool looks_at_all = node->machine.shared->read_cost || options->read_step_count;

	control->read_steps.count = options->read_step_count;
	memcpy(control->read_steps.of, options->read_steps, sizeof(options->read_steps));
	control->rows.looks_every = looks_at_all ? 1 : control->rows.every;
}

static void remove_all(void)
{
	net_remove(the_run.nodes->folder);
	turns_remove(the_run.nodes->folder);
	for (size_t i = the_run.count; i-- > 0;)
		remove_files(&the_run.nodes[i]);
}

/* Makes the clocks of all nodes, with their records and logs. */
static void open_all(struct run *run)
{
	const struct options *options = &run->nodes->options;

	open_machines(run);
	coverage_start(run->nodes->folder);
	if (options->log)
		share_log(run);
	if (options->record || options->is_checked)
		start_records(run);
	for (size_t i = 0; i < run->count; i++) {
		look_at_reads(&run->nodes[i]);
		run_first_orders(&run->nodes[i]);
		moves_note(&run->nodes[i].machine);
	}
	if (run->count > 1)
		control_open(run);
	net_open(run);
	turns_open(run);
	act_all_due(run);
}

static void print_end(const struct run *run)
{
	if (!run->nodes->options.is_quiet)
		print_summary(run);
	print_faults(run);
	for (size_t i = 0; i < run->count; i++)
		print_log(&run->nodes[i]);
}

/* Lets numbers, addresses and random bytes of processes be the same in each run. */
static void start_seed(const struct options *options)
{
	bool has_numbers = space_enter();

	space_fix_addresses();
	random_start(seed_for(options->seed, SEED_BYTES), has_numbers);
}

int main(int count, char **words)
{
	struct run *run = &the_run;
	struct options *options = &run->nodes->options;
	sigset_t signals;

	enter_node(count, words);
	control_node(count, words);
	merge_records(count, words);
	hold_standard_files();
	parse_options(count, words, options);
	read_plan(options);
	if (options->is_lax)
		uncovered_allow();
	find_host_clock(run);
	preload_library(options->link_count, options->has_seed);
	if (options->is_checked)
		find_tkcore();
	if (options->log)
		start_log(options);
	if (options->has_seed)
		start_seed(options);
	signals_block(&signals);
	atexit(remove_all);
	open_all(run);
	prctl(PR_SET_CHILD_SUBREAPER, 1, 0, 0, 0);
	signals_end_early();
	run->started = host_nanos(CLOCK_MONOTONIC);
	start_program(run);
	signals_ignore();
	watch_locks(run);
	ending_watch();
	drive(run, &signals);
	ending_watch_no_more();
	print_end(run);
	if (options->record || options->is_checked)
		end_records(run);
	if (uncovered_is_over() && run->status != STATUS_DIFFERS)
		return STATUS_UNCOVERED;
	return run->status;
}
