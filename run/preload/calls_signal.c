/* SPDX-License-Identifier: MIT OR Apache-2.0 */
/*
 * calls_signal.c - the calls that set what a signal does. The library's handler gets WAKE_SIGNAL,
 * and passes on to the program's what tkrun hasn't sent. The program doesn't see that.
 */
#define _GNU_SOURCE
#include "wake.h"

#include <unistd.h>

/* What the program has set for WAKE_SIGNAL: at first, what a signal does by default. The second
 * one is set while the first one is read. */
static struct sigaction shown[2];
static _Atomic unsigned int shown_count;

static struct sigaction shown_now(void)
{
	return shown[atomic_load(&shown_count) % 2];
}

static bool has_handler(const struct sigaction *action)
{
	return action->sa_flags & SA_SIGINFO ||
	       (action->sa_handler != SIG_DFL && action->sa_handler != SIG_IGN);
}

/* The function is found before a handler needs it. */
static void set(const struct sigaction *action)
{
	REAL(sigaction)(WAKE_SIGNAL, action, NULL);
}

/* A handler of the program's blocks what the program has said, and it says which system calls go
 * on. */
static void install(const struct sigaction *program)
{
	const int kept = SA_RESTART | SA_ONSTACK | SA_NODEFER;
	struct sigaction action = { .sa_sigaction = wake_handle,
				    .sa_flags = SA_SIGINFO | SA_RESTART };

	sigfillset(&action.sa_mask);
	if (has_handler(program)) {
		action.sa_mask = program->sa_mask;
		action.sa_flags = SA_SIGINFO | (program->sa_flags & kept);
	}
	set(&action);
}

static void show(const struct sigaction *action)
{
	unsigned int next = atomic_load(&shown_count) + 1;

	shown[next % 2] = *action;
	atomic_store(&shown_count, next);
}

void wake_start(void)
{
	struct sigaction action = shown_now();

	install(&action);
}

/* Lets the signal do what it does by default: it ends the process. */
static void end_process(int number)
{
	static const struct sigaction ends = { .sa_handler = SIG_DFL };

	set(&ends);
	host_call(SYS_tgkill, getpid(), own_thread(), number, 0, 0, 0);
}

bool wake_is_ignored(void)
{
	struct sigaction action = shown_now();

	return !has_handler(&action) && action.sa_handler == SIG_IGN;
}

void wake_pass_on(int number, siginfo_t *info, void *context)
{
	static const struct sigaction none;
	struct sigaction action = shown_now();

	if (!has_handler(&action)) {
		if (action.sa_handler == SIG_DFL)
			end_process(number);
		return;
	}
	if (action.sa_flags & (int)SA_RESETHAND)
		sigaction(number, &none, NULL);
	if (action.sa_flags & SA_SIGINFO)
		action.sa_sigaction(number, info, context);
	else
		action.sa_handler(number);
}

EXPORT int sigaction(int number, const struct sigaction *restrict in,
		     struct sigaction *restrict out)
{
	struct sigaction before;

	if (number != WAKE_SIGNAL || !machine())
		return REAL(sigaction)(number, in, out);
	before = shown_now();
	if (in) {
		show(in);
		install(in);
	}
	if (out)
		*out = before;
	return 0;
}

EXPORT sighandler_t signal(int number, sighandler_t handler)
{
	struct sigaction in = { .sa_handler = handler, .sa_flags = SA_RESTART },
			 out;

	if (number != WAKE_SIGNAL || !machine())
		return REAL(signal)(number, handler);
	sigaddset(&in.sa_mask, number);
	return sigaction(number, &in, &out) ? SIG_ERR : out.sa_handler;
}
