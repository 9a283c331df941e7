/* SPDX-License-Identifier: MIT OR Apache-2.0 */
/* coverage.h - finds processes that have no clocks: if tkrun answers no system calls, or if it
 * couldn't trace a program that should load the library. */
#ifndef COVERAGE_H
#define COVERAGE_H

#include "tree.h"

/* Sets the folder of the clocks. */
void coverage_start(const char *folder);

/* Checks a process, too, unless it says that it has the clocks. */
void coverage_add(pid_t process);
void coverage_remove(pid_t process);

/* Checks these processes, or all of the tree. A process is checked twice, since a new one
 * loads its libraries first. Names those that have no clocks. */
void coverage_check(struct tree *tree, bool checks_all);

#endif
