/* SPDX-License-Identifier: MIT OR Apache-2.0 */
/* tkrun.h - a run of a program, on the clocks of one or more nodes. */
#ifndef TKRUN_H
#define TKRUN_H

#include "events.h"
#include "pace.h"
#include "signals.h"
#include "wander.h"
#include "processes/tree.h"
#include "record/recording.h"
#include "static/static.h"

#include <limits.h>
#include <sys/un.h>

/* One set of clocks, with its record. */
struct node {
	struct options options;
	struct plan plan;
	struct machine machine;
	struct recording recording;
	struct pace pace;
	struct wander wander;
	double error_ppm; /* of the counter, without its wander */
	struct tree *tree; /* of the run */
	struct idle *idles; /* by the place of a waiter */
	char folder[PATH_MAX - 64];
	char scratch[PATH_MAX]; /* the folder of a record that isn't kept */
	uint64_t next_look;	/* the host's ns at which its waits are looked at again */
	uint32_t changes;	/* of its clocks, when they were looked at */
};

/* The first node has the clocks of the program. The others are those of --node. */
struct run {
	struct node nodes[1 + NODES_MOST];
	size_t count;
	struct tree tree;
	uint64_t elapsed; /* the common counter of sleeps: ns, or cycles if there is one node */
	struct pace truth; /* ns of the true time, by the common counter */
	uint64_t started, checked; /* the host's ns: the run, and its processes' clocks */
	pid_t child; /* the program, or 0 when it has ended */
	int status;
	int listener; /* by which the kernel asks, or -1 */
	int execs;    /* can be read if programs wait for being executed, or -1 */
	bool calls_host; /* the vDSO can't read the host's clocks */
};

/* The run of this tkrun. */
extern struct run the_run;

/* Finds out how the host's clocks are read. A tkrun inside another one with a
 * filter must not read the clocks outside. */
void find_host_clock(struct run *run);

/* Makes the clocks of all nodes. Ends tkrun if it can't. */
void open_machines(struct run *run);

/* Removes the files that were made for a node, however the run ends. */
void remove_files(const struct node *node);

/* Returns a node's name with a colon and a space for a message, or nothing for the first node. */
const char *node_prefix(const struct node *node);

/* Starts the records of all nodes. */
void start_records(struct run *run);

/* Writes the records, and compares them if --check is there, which may change the status of the
 * run. */
void end_records(struct run *run);

/* Writes where the nodes' readings are on the common counter, when that changes. */
void start_paces(struct run *run);
void note_pace(const struct node *node);
void end_paces(void);

/* Returns the true time of the run: that of the program's counter since the start, in ns. */
uint64_t true_nanos(const struct run *run);

/* Lets an event happen now. Returns the code of a refusal. */
enum tkc_code act(struct run *run, const struct event *event);

/* Lets the events happen whose time has come, and prints refusals. */
void act_all_due(struct run *run);

/* Returns the next step of a node's walk before a value of the common counter, or that value. If it
 * is NEVER, there is none: a walk doesn't move the counter. */
uint64_t before_wander(const struct run *run, uint64_t common);

/* Changes the errors of the counters whose step has come. */
void wander_all_due(struct run *run);

/* Opens the socket of `tkrun ctl`. The other answers a client. Returns whether there was one. */
void control_open(const struct run *run);
bool control_serve(struct run *run);

/* Stores the address of this socket. Returns false if the folder's name is too long. */
bool control_address(struct sockaddr_un *address, const char *folder);

/* The most bytes of an event that a client sends. */
enum { EVENT_MOST = 1024 };

/* `tkrun ctl NODE COMMAND [VALUE]`: ends tkrun, unless these aren't its arguments. */
void control_node(int count, char **words);

/* Returns the folder of the run that has started this process, or NULL. */
const char *find_run(void);

/* `tkrun node NAME -- PROGRAM`: executes a program on a node of the run that has started tkrun.
 * Returns if these aren't its arguments. */
void enter_node(int count, char **words);

/* Finds the library, and those of the network and of the turns, and puts them in front of LD_PRELOAD.
 * Ends tkrun if they can't be preloaded. */
void preload_library(bool has_net, bool has_turns);

/* Starts the program. If it can't be run, ends tkrun as env(1) ends. */
void start_program(struct run *run);

/* Lets programs be executed that wait for it. */
void serve_execs(struct run *run);

/* If all threads wait, moves a counter of sleeps to the first of their times,
 * or to the next order. Returns whether it moved. */
bool move_counter(struct run *run);

/* Ends the waits on a node whose time a command has brought, on a counter that runs. */
void wake_changed(struct node *node);

/* Starts the thread that names a process if it is stopped while it has the lock of some
 * clocks. */
void watch_locks(struct run *run);

/* The first starts a thread that ends all processes when SIGTERM or SIGINT comes: it passes the
 * signal on, and kills them after a second, or when the next one comes. The other ends it. */
void ending_watch(void);
void ending_watch_no_more(void);

/* Returns whether processes go on that can't be killed. */
bool ending_is_over(void);

/* Print what became of the run and of its nodes, which times were the host's, and what became of a
 * node's log and of its record. */
void print_summary(const struct run *run);
void print_faults(const struct run *run);
void print_log(const struct node *node);
void print_record(const struct node *node, bool is_written);

#endif
