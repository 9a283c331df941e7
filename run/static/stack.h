/* SPDX-License-Identifier: MIT OR Apache-2.0 */
/* stack.h - what the kernel puts on the stack of a program that it executes. */
#ifndef STACK_H
#define STACK_H

#include <stdbool.h>
#include <stddef.h>
#include <stdint.h>
#include <sys/types.h>

/* Returns a word of a process. It is 0, with errno, if it can't be read: the process may
 * have been killed meanwhile. */
uint64_t stack_peek(pid_t process, uint64_t address);

/* Reads a text as far as its two pages can be read. */
void stack_read_text(pid_t process, uint64_t address, char *text, size_t size);

/* Returns whether an environment at this address preloads the library. */
bool stack_has_preload(pid_t process, uint64_t environment);

/* Returns the address of an auxiliary value's kind, or 0. `top` is the stack's pointer when the
 * program starts. errno becomes 0, unless the stack can't be read. */
uint64_t stack_find_auxiliary(pid_t process, uint64_t top, uint64_t kind);

#endif
