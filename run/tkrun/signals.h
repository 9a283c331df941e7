/* SPDX-License-Identifier: MIT OR Apache-2.0 */
/*
 * signals.h - the signals that end tkrun, or that a process which tkrun starts gets.
 *
 * SIGTERM, SIGHUP, SIGINT and SIGQUIT would end tkrun before it has removed its files.
 * So it blocks them, and ends all processes at SIGTERM and SIGINT. It passes SIGHUP on,
 * and ignores SIGQUIT, which a terminal sends to the program as well.
 */
#ifndef SIGNALS_H
#define SIGNALS_H

#include <signal.h>
#include <stdbool.h>
#include <sys/types.h>

/* Blocks these signals and SIGCHLD, and lets no limit of a file's size end tkrun.
 * Stores those that it waits for later. */
void signals_block(sigset_t *waited);

/* Returns whether tkrun was started with a signal ignored, as a shell starts what it leaves in the
 * background. */
bool signals_was_ignored(int number);

/* Ends tkrun if a signal came before there was a program to pass it on to. */
void signals_end_early(void);

/* Ignores those that tkrun doesn't wait for, now that the program runs. */
void signals_ignore(void);

/* Gives a process that tkrun has forked the signals with which tkrun was started. */
void signals_restore(void);

/* Passes these signals on to a process, until signals_pass_no_more. */
void signals_pass_to(pid_t process);
void signals_pass_no_more(void);

/* Returns the last signal that came in between, or 0. */
int signals_passed(void);

#endif
