/* SPDX-License-Identifier: MIT OR Apache-2.0 */
/* make_clocks.c - makes the clocks that the processes of a run share. */
#define _GNU_SOURCE
#include "idle.h"
#include "seeds.h"

#include "clocks/rows.h"

#include <errno.h>
#include <fcntl.h>
#include <math.h>
#include <stdio.h>
#include <stdlib.h>
#include <string.h>
#include <sys/mman.h>
#include <sys/stat.h>
#include <unistd.h>

enum {
	UPDATE_NANOS = 10000000, /* the span between two updates */
	LEAST_WRAP = 4000000,	 /* ns; a counter must not wrap faster */
	TSC_NANOS = 300000000,	 /* for which the TSC's rate is measured */
	NAMES_MOST = 64,	 /* of runs of one seed at a time */
};

/* The TSC and MONOTONIC_RAW, as close together as a few tries give. */
static void read_both(uint64_t *cycles, uint64_t *nanos)
{
	uint64_t best = UINT64_MAX, before, after, now;

	for (int i = 0; i < 50; i++) {
		before = machine_host(COUNTER_TSC);
		now = machine_host(COUNTER_RAW);
		after = machine_host(COUNTER_TSC);
		if (after - before >= best)
			continue;
		best = after - before;
		*cycles = before + best / 2;
		*nanos = now;
	}
}

/* Measures the host's rate of a counter, in Hz. */
static double measure(enum counter_kind kind)
{
	uint64_t cycles[2], nanos[2];

	if (kind != COUNTER_TSC)
		return NANOS;
	read_both(&cycles[0], &nanos[0]);
	host_nap(TSC_NANOS);
	read_both(&cycles[1], &nanos[1]);
	return (double)(cycles[1] - cycles[0]) * 1e9 /
	       (double)(nanos[1] - nanos[0]);
}

/* Makes a file of the folder, with its memory, and maps it. */
static void *make_file(const char *folder, const char *name, size_t size,
		       mode_t mode)
{
	void *memory = MAP_FAILED;
	char path[PATH_MAX];
	int file, error;

	snprintf(path, sizeof(path), "%s/%s", folder, name);
	file = open(path, O_RDWR | O_CREAT | O_EXCL | O_CLOEXEC, mode);
	if (file < 0)
		return NULL;
	fchmod(file, mode);
	error = posix_fallocate(file, 0, (off_t)size);
	if (!error)
		memory = mmap(NULL, size, PROT_READ | PROT_WRITE, MAP_SHARED,
			      file, 0);
	else
		errno = error;
	close(file);
	return memory == MAP_FAILED ? NULL : memory;
}

static bool has_relays(const struct node *node)
{
	return !address_is_none(node->options.addresses[FAMILY_SIX]);
}

/* Makes the files of a folder that is there. Returns false if it can't. */
static bool make_files(struct node *node)
{
	struct machine *machine = &node->machine;
	size_t more = node->options.has_file_times ? sizeof(*machine->shared->file_times) : 0;

	if (has_relays(node))
		more += sizeof(struct relays);
	chmod(node->folder, 0755);
	machine->shared = make_file(node->folder, "page",
				    sizeof(*machine->shared) + more, 0644);
	machine->control = make_file(node->folder, "control",
				     sizeof(*machine->control), 0600);
	return machine->shared && machine->control;
}

__attribute__((noreturn)) static void fail_clocks(void)
{
	fail(STATUS_FAILED, "cannot make the shared clocks: %s",
	     strerror(errno));
}

/* Makes a folder in a place. Programs find its name in their environment. With --seed, it comes from
 * the seed, unless other runs have these names now. */
static bool make_folder_in(struct node *node, const char *place)
{
	uint64_t name = seed_for(node->options.seed, SEED_FOLDER);

	for (int i = 0; node->options.has_seed && i < NAMES_MOST; i++, name++) {
		snprintf(node->folder, sizeof(node->folder), "%s/tkrun.%06x", place,
			 (unsigned int)(name & 0xffffff));
		if (!mkdir(node->folder, 0700))
			return true;
	}
	snprintf(node->folder, sizeof(node->folder), "%s/tkrun.XXXXXX", place);
	return mkdtemp(node->folder);
}

/* Makes the folder of the first clocks: in /dev/shm, or else in TMPDIR or /tmp. */
static void make_folder(struct node *node)
{
	const char *temporary = getenv("TMPDIR");
	const char *places[] = { "/dev/shm", temporary ? temporary : "/tmp" };

	for (int i = 0; i < 2; i++) {
		if (!make_folder_in(node, places[i]))
			continue;
		if (make_files(node))
			return;
		remove_files(node);
	}
	fail_clocks();
}

/* Makes the folder of a node in that of the first clocks, by which `tkrun node` finds it. */
static void make_node_folder(struct node *node, const char *first)
{
	snprintf(node->folder, sizeof(node->folder), "%.*s/" NODE_FOLDER "%s",
		 (int)sizeof(node->folder) - 64, first, node->options.name);
	if (mkdir(node->folder, 0755) || !make_files(node))
		fail_clocks();
}

void remove_files(const struct node *node)
{
	char path[PATH_MAX];

	if (!*node->folder)
		return; /* nothing was made */
	snprintf(path, sizeof(path), "%s/page", node->folder);
	unlink(path);
	snprintf(path, sizeof(path), "%s/control", node->folder);
	unlink(path);
	snprintf(path, sizeof(path), "%s/ctl", node->folder);
	unlink(path);
	rmdir(node->folder);
	if (*node->recording.rows_path)
		unlink(node->recording.rows_path);
	if (*node->scratch) {
		unlink(node->recording.path);
		rmdir(node->scratch);
	}
}

/* Sets the cycles for each unit of the host, or of the common counter of sleeps. */
static void set_scale(struct shared_page *shared, long double ratio)
{
	struct pace pace = pace_of(ratio);

	shared->scale = pace.scale;
	shared->scale_shift = pace.shift;
}

/* Describes how the counter moves. Ends tkrun if it wraps too fast. */
static void set_counter(struct node *node, double host_hz)
{
	const struct options *options = &node->options;
	struct shared_page *shared = node->machine.shared;
	double speed = options->speed * (1 + options->error_ppm * 1e-6);
	uint32_t bits, mult, shift;
	double half;

	tkc_counter_numbers(&bits, &mult, &shift, &node->plan.counter);
	shared->kind = options->counter;
	shared->mask = UINT64_MAX >> (64 - bits);
	shared->first = node->plan.first;
	set_scale(shared,
		  !options->hz && !options->script &&
				  options->counter == COUNTER_TSC
			  ? (long double)speed
			  : (long double)node->plan.hz * speed / host_hz);
	shared->read_cost = (uint64_t)ceil((double)options->read_cost * node->plan.hz / NANOS);
	shared->nanos_per_cycle = 1e9 / (node->plan.hz * speed);
	shared->speed = speed;
	half = (double)(shared->mask / 2) * shared->nanos_per_cycle;
	if (half < LEAST_WRAP / 2 && options->counter != COUNTER_SLEEPS)
		fail(STATUS_WRONG,
		     "the counter wraps every %.3f ms; tkrun needs %d ms or more",
		     half / 5e5, LEAST_WRAP / 1000000);
	shared->update_nanos =
		half / 4 < UPDATE_NANOS ? (uint64_t)(half / 4) : UPDATE_NANOS;
}

/* Without --node, the common counter is that of the clocks. */
static void set_pace(struct node *node, bool is_alone)
{
	const struct shared_page *shared = node->machine.shared;

	node->pace = (struct pace){ .scale = is_alone ? 1 : shared->scale,
				    .shift = is_alone ? 0 : shared->scale_shift };
}

/* The true time is that of the program's counter. Without --node, nothing asks for it. */
static void set_truth(struct run *run)
{
	const struct node *first = run->nodes;
	const struct pace *pace = &first->pace;

	run->truth = first->machine.shared->kind == COUNTER_SLEEPS
			     ? pace_of(1)
			     : pace_of(ldexpl((long double)pace->scale, -(int)pace->shift) *
				       NANOS / first->plan.hz);
}

/* Makes the clocks of a node. All nodes count since the same moment of the host. */
static void open_machine(const struct run *run, struct node *node, double host_hz)
{
	const struct node *first = node == run->nodes ? NULL : run->nodes;
	struct shared_page *shared;

	fail_within(node->options.name);
	plan_make(&node->plan, &node->options, host_hz, first ? &first->plan : NULL);
	if (first)
		make_node_folder(node, first->folder);
	else
		make_folder(node);
	shared = node->machine.shared;
	set_counter(node, host_hz);
	set_pace(node, run->count == 1);
	node->error_ppm = node->options.error_ppm;
	node->wander = wander_start(node->options.wander_ppm, node->options.seed,
				    node->options.name);
	shared->node = (uint32_t)(node - run->nodes);
	shared->denies_set = node->options.denies_set;
	shared->has_stamps = node->options.has_stamps;
	shared->has_file_times = node->options.has_file_times;
	shared->peers.has_relays = has_relays(node);
	shared->calls_host = run->calls_host;
	machine_init_lock(node->machine.control);
	shared->base = first ? first->machine.shared->base
			     : machine_host(shared->kind);
	machine_init_clocks(&node->machine, &node->plan.clocks);
	shared->layout = MACHINE_LAYOUT;
	fail_within(NULL);
}

/* Gives each node the options of the program's clocks, or its own. */
static void list_nodes(struct run *run)
{
	const struct options *options = &run->nodes->options;

	run->count = 1 + options->node_count;
	for (size_t i = 1; i < run->count; i++)
		run->nodes[i].options = options->nodes[i - 1];
	for (size_t i = 0; i < run->count; i++) {
		struct node *node = &run->nodes[i];

		node->tree = &run->tree;
		node->idles = calloc(WAITERS_MOST, sizeof(*node->idles));
		node->machine.chunks = calloc(1, sizeof(*node->machine.chunks));
		if (!node->idles || !node->machine.chunks)
			fail(STATUS_FAILED, "out of memory");
	}
}

void open_machines(struct run *run)
{
	double host_hz = measure(run->nodes->options.counter);
	struct tree *tree = &run->tree;

	list_nodes(run);
	tree->controls = calloc(run->count, sizeof(*tree->controls));
	if (!tree->controls)
		fail(STATUS_FAILED, "out of memory");
	for (size_t i = 0; i < run->count; i++) {
		open_machine(run, &run->nodes[i], host_hz);
		tree->controls[tree->control_count++] =
			run->nodes[i].machine.control;
	}
	set_truth(run);
}
