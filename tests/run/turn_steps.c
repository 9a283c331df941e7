/* SPDX-License-Identifier: MIT OR Apache-2.0 */
/*
 * With --seed, handlers of signals that come while a thread gets its turn.
 *
 *     turn_steps read|kill FIRST
 *
 * In each round, the main thread reads a byte of a pipe for which it waits, or sends itself a
 * signal. When the byte or the signal has come, the thread goes on in single steps. After a number
 * of instructions a handler makes a call that needs the turn, too. The numbers start at the one
 * with the index FIRST. Prints which threads had turns: that doesn't depend on the numbers.
 */
#define _GNU_SOURCE
#include <pthread.h>
#include <sched.h>
#include <signal.h>
#include <stdbool.h>
#include <stdio.h>
#include <stdlib.h>
#include <string.h>
#include <time.h>
#include <ucontext.h>
#include <unistd.h>

enum {
	TRAP_FLAG = 0x100,
	ROUNDS = 125,
	STRIDE = 4, /* instructions; the calls have fewer than ROUNDS * STRIDE */
	OTHERS = 4,
	TURNS_MOST = 1 << 16,
};

static char turns[TURNS_MOST + 1];
static size_t turn_count;
static int ends[2];
static bool is_over, wants_byte;

/* of a round */
static volatile char has_come; /* the byte or the signal */
static volatile long steps, last_step;
static volatile bool is_called;

/* Only a thread that has the turn makes this call. */
static void note(char name)
{
	if (turn_count < TURNS_MOST)
		turns[turn_count++] = name;
}

static void need_turn(void)
{
	is_called = true;
	time(NULL);
}

/* Runs after each instruction, from the first SIGTRAP until the call is made. */
static void step(int number, siginfo_t *info, void *context)
{
	greg_t *flags = &((ucontext_t *)context)->uc_mcontext.gregs[REG_EFL];

	(void)number;
	(void)info;
	*flags |= TRAP_FLAG;
	if (has_come && ++steps == last_step)
		need_turn();
	if (is_called)
		*flags &= ~(greg_t)TRAP_FLAG;
}

static void come(int number)
{
	(void)number;
	has_come = 1;
}

static void *take_turns(void *name)
{
	while (!is_over) {
		note(*(char *)name);
		if (wants_byte) {
			wants_byte = false;
			(void)!write(ends[1], "x", 1);
		}
		sched_yield();
	}
	return NULL;
}

/* If the call has fewer instructions, the other one is made after it. */
static void run_round(bool reads, long until)
{
	steps = 0;
	last_step = until;
	has_come = 0;
	is_called = false;
	wants_byte = reads;
	raise(SIGTRAP);
	if (reads ? read(ends[0], (char *)&has_come, 1) != 1 : kill(getpid(), SIGUSR1))
		exit(EXIT_FAILURE);
	last_step = 0;
	if (!is_called)
		need_turn();
	note('.');
}

int main(int count, char **words)
{
	struct sigaction action = { .sa_sigaction = step, .sa_flags = SA_SIGINFO };
	char names[OTHERS] = "abcd";
	pthread_t others[OTHERS];
	long first = count > 2 ? atol(words[2]) : 0;

	if (count < 3 || pipe(ends) || sigaction(SIGTRAP, &action, NULL))
		return EXIT_FAILURE;
	signal(SIGUSR1, come);
	for (int i = 0; i < OTHERS; i++)
		pthread_create(&others[i], NULL, take_turns, &names[i]);
	for (long i = 0; i < ROUNDS; i++)
		run_round(!strcmp(words[1], "read"), (first + i) % ROUNDS * STRIDE + 1);
	is_over = true;
	for (int i = 0; i < OTHERS; i++)
		pthread_join(others[i], NULL);
	puts(turns);
	return 0;
}
