/* SPDX-License-Identifier: MIT OR Apache-2.0 */
/*
 * Kills processes of two nodes, at moments that a seed gives.
 *
 *     nodes_killer COUNT SEED DEEDS TKRUN VICTIM ADDRESS ADDRESS PORT
 *
 * Starts nodes_victim (VICTIM) on the nodes a and b of a run, until COUNT processes were killed.
 * Half of the victims go on by themselves: some time after their start, one of their processes is
 * killed or all are. The rest are traced through one of DEEDS deeds, and killed after a number of
 * steps: so they have half made a call, locked the clocks, or half written a message. Prints how
 * many were killed, and ends with status 1 if a victim ends by itself.
 */
#define _GNU_SOURCE
#include <signal.h>
#include <stdbool.h>
#include <stdio.h>
#include <stdlib.h>
#include <string.h>
#include <sys/ptrace.h>
#include <sys/wait.h>
#include <time.h>
#include <unistd.h>

enum { NODES = 2, DEEDS_MOST = 32, STEPS_MOST = 15000 };

static char *const NAMES[] = { "a", "b" };

static char **words;
static unsigned int seed;
static long killed;
static bool is_wrong;
static pid_t servers[NODES];

static unsigned int draw(unsigned int below)
{
	return (unsigned int)rand_r(&seed) % below;
}

static char *number(long value, char text[16])
{
	snprintf(text, 16, "%ld", value);
	return text;
}

/* Executes a program on a node in a new process, which is the first one of its group. */
static pid_t start(char **line)
{
	pid_t child = fork();

	if (child)
		return child;
	setpgid(0, 0);
	execv(*line, line);
	_exit(EXIT_FAILURE);
}

static pid_t start_victim(int node, char *how, char *value)
{
	char *tkrun = words[4], *victim = words[5], **addresses = words + 6, *port = words[8];
	char *line[] = { tkrun, "node", NAMES[node], "--", victim, how, value, addresses[!node], port,
			 tkrun, "node", NAMES[draw(NODES)], "--", victim, "nothing", NULL };

	return start(line);
}

static pid_t start_server(int node)
{
	char *line[] = { words[4], "node", NAMES[node], "--", words[5], "serve", words[6 + node],
			 words[8], NULL };

	return start(line);
}

static void wait_and_kill(pid_t process)
{
	int status = 0;

	killed += !kill(process, SIGKILL);
	while (waitpid(process, &status, 0) == process && WIFSTOPPED(status))
		;
	is_wrong |= !WIFSIGNALED(status);
}

/* Sleeps by the clocks, and then computes for a while. */
static void pause_for(unsigned int nanos, unsigned int turns)
{
	const struct timespec span = { 0, nanos };

	if (nanos)
		nanosleep(&span, NULL);
	for (volatile unsigned int i = 0; i < turns; i++)
		;
}

/* Returns a child of a process, or the process itself. */
static pid_t some_child(pid_t process)
{
	char path[64];
	FILE *file;
	pid_t child;

	snprintf(path, sizeof(path), "/proc/%d/task/%d/children", process, process);
	file = fopen(path, "r");
	if (!file || fscanf(file, "%d", &child) != 1)
		child = process;
	if (file)
		fclose(file);
	return child;
}

/* Kills one process of a victim, or all. Those that are left go on for a while. */
static void kill_free(int node)
{
	char text[16];
	pid_t victim = start_victim(node, "loop", number(draw(1 << 16), text));
	bool is_early = !draw(4);
	pid_t chosen;

	pause_for(is_early ? 0 : draw(2000000), draw(is_early ? 3000000 : 200000));
	chosen = draw(2) ? victim : some_child(victim);
	if (chosen != victim) {
		killed += !kill(chosen, SIGKILL);
		pause_for(draw(100000), draw(20000));
	}
	wait_and_kill(victim);
	pause_for(draw(100000), draw(20000));
	killed += !kill(-victim, SIGKILL); /* what it has left */
}

/* Lets a victim go on until its next stop, with the signal of the last one, unless it is one of the
 * tracer's. Returns the signal of the stop, or 0 if the victim has ended. */
static int go_on(enum __ptrace_request request, pid_t victim, int signal)
{
	int status = 0;

	if (signal == SIGTRAP || signal == SIGSTOP)
		signal = 0;
	if (ptrace(request, victim, 0, signal) || waitpid(victim, &status, 0) != victim)
		return 0;
	return WIFSTOPPED(status) ? WSTOPSIG(status) : 0;
}

/* Lets a victim go on to its next deed. Returns whether it gets there. */
static bool pass_deed(pid_t victim)
{
	int signal = 0;

	do {
		signal = go_on(PTRACE_CONT, victim, signal);
	} while (signal && signal != SIGSTOP);
	return signal;
}

/* Lets a victim make up to `most` steps of its deed. Returns how many it has made. */
static long step(pid_t victim, enum __ptrace_request request, long most)
{
	long steps = 0;
	int signal = 0;

	while (steps < most) {
		signal = go_on(request, victim, signal);
		if (!signal || signal == SIGSTOP)
			break;
		steps++;
	}
	return steps;
}

/* Kills a victim amid a deed, the first one of its kind in the process or the second one: after a
 * number of instructions, or of entries into the kernel and returns. */
static void kill_traced(int node)
{
	static const enum __ptrace_request KINDS[2] = { PTRACE_SINGLESTEP, PTRACE_SYSCALL };
	static long lengths[2][2][DEEDS_MOST];
	char text[16];
	unsigned int deed = draw((unsigned int)atoi(words[3])), is_second = draw(2), kind = draw(2);
	pid_t victim = start_victim(node, "step", number(deed, text));
	long *length = &lengths[kind][is_second][deed];
	int status = 0;

	if (waitpid(victim, &status, 0) != victim || !WIFSTOPPED(status) ||
	    (is_second && !pass_deed(victim)))
		is_wrong = true;
	if (*length)
		step(victim, KINDS[kind], draw((unsigned int)*length));
	else
		*length = step(victim, KINDS[kind], STEPS_MOST) + 1;
	wait_and_kill(victim);
}

static void kill_server(int node)
{
	if (servers[node])
		wait_and_kill(servers[node]);
	servers[node] = start_server(node);
}

int main(int count, char **all)
{
	words = all;
	if (count < 9)
		return EXIT_FAILURE;
	seed = (unsigned int)atoi(words[2]);
	for (int i = 0; i < NODES; i++)
		kill_server(i);
	while (killed < atol(words[1]) && !is_wrong) {
		int node = (int)draw(NODES);

		if (draw(2))
			kill_free(node);
		else
			kill_traced(node);
		if (!draw(20))
			kill_server(node);
	}
	for (int i = 0; i < NODES; i++)
		wait_and_kill(servers[i]);
	printf("killed %ld\n", killed);
	return is_wrong;
}
