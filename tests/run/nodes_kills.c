/* SPDX-License-Identifier: MIT OR Apache-2.0 */
/*
 * Kills processes of a node.
 *
 *     nodes_kills COUNT PROGRAM ARGS..
 *
 * Runs the program, which starts this one on a node without arguments, until COUNT processes were
 * killed. There, two processes set REALTIME and sleep without end, and write their numbers. Each
 * time, the first, the second or both are killed, up to 0.3 ms after that. Prints how many were.
 */
#define _GNU_SOURCE
#include <signal.h>
#include <stdio.h>
#include <stdlib.h>
#include <sys/wait.h>
#include <time.h>
#include <unistd.h>

enum { SETS = 20, WORKERS = 2 };

static void work(void)
{
	const struct timespec span = { 0, 50000 };

	for (int i = 0;; i++) {
		const struct timespec time = { 1000000000 + i, 0 };

		if (clock_settime(CLOCK_REALTIME, &time))
			_exit(EXIT_FAILURE);
		if (i % SETS == 0)
			nanosleep(&span, NULL);
	}
}

static void work_all(void)
{
	for (int i = 1; i < WORKERS; i++) {
		if (!fork())
			break;
	}
	dprintf(STDOUT_FILENO, "%d\n", getpid());
	work();
}

/* Starts the program. Stores the numbers of its processes. */
static void start(char **words, pid_t *workers)
{
	FILE *lines;
	int ends[2];

	if (pipe(ends))
		exit(EXIT_FAILURE);
	if (!fork()) {
		dup2(ends[1], STDOUT_FILENO);
		close(ends[0]);
		close(ends[1]);
		execvp(*words, words);
		_exit(EXIT_FAILURE);
	}
	close(ends[1]);
	lines = fdopen(ends[0], "r");
	for (int i = 0; i < WORKERS; i++) {
		if (fscanf(lines, "%d", &workers[i]) != 1)
			exit(EXIT_FAILURE);
	}
	fclose(lines);
}

/* Returns how many processes it has killed amid their work. */
static int kill_some(char **words, unsigned int *seed)
{
	pid_t workers[WORKERS];
	struct timespec span;
	int chosen, killed = 0;

	start(words, workers);
	span = (struct timespec){ 0, rand_r(seed) % 300000 };
	nanosleep(&span, NULL);
	chosen = 1 + rand_r(seed) % (1 << WORKERS) % ((1 << WORKERS) - 1);
	for (int i = 0; i < WORKERS; i++)
		killed += chosen >> i & 1 && !kill(workers[i], SIGKILL);
	nanosleep(&span, NULL); /* what is left works on */
	for (int i = 0; i < WORKERS; i++)
		if (!(chosen >> i & 1))
			killed += !kill(workers[i], SIGKILL);
	while (wait(NULL) > 0)
		;
	return killed;
}

int main(int count, char **words)
{
	unsigned int seed = 1;
	int killed = 0;

	if (count < 3)
		work_all();
	while (killed < atoi(words[1]))
		killed += kill_some(words + 2, &seed);
	printf("killed %d\n", killed);
	return EXIT_SUCCESS;
}
