/* SPDX-License-Identifier: MIT OR Apache-2.0 */
/*
 * stack.c - reads the stack of a program that starts. It contains the number of arguments, the
 * arguments, a 0, the environment, a 0, and the auxiliary vector.
 */
#define _GNU_SOURCE
#include "stack.h"

#include <errno.h>
#include <string.h>
#include <sys/uio.h>

enum { PAGE = 4096, TEXT_MOST = 4096 };

uint64_t stack_peek(pid_t process, uint64_t address)
{
	uint64_t word = 0;
	struct iovec here = { &word, sizeof(word) };
	struct iovec there = { (void *)address, sizeof(word) };

	if (process_vm_readv(process, &here, 1, &there, 1, 0) != sizeof(word))
		return 0;
	return word;
}

void stack_read_text(pid_t process, uint64_t address, char *text, size_t size)
{
	size_t page = PAGE - address % PAGE;
	size_t first = page < size - 1 ? page : size - 1;
	struct iovec here = { text, size - 1 };
	struct iovec there[2] = {
		{ (void *)address, first },
		{ (void *)(address + first), size - 1 - first },
	};
	ssize_t length = process_vm_readv(process, &here, 1, there, 2, 0);

	text[length < 0 ? 0 : length] = 0;
}

bool stack_has_preload(pid_t process, uint64_t environment)
{
	static const char NAME[] = "LD_PRELOAD=";
	char text[TEXT_MOST];
	uint64_t address;

	for (uint64_t at = environment; (address = stack_peek(process, at));
	     at += 8) {
		stack_read_text(process, address, text, sizeof(text));
		if (!strncmp(text, NAME, sizeof(NAME) - 1))
			return strstr(text, "/libtkrun.so");
	}
	return false;
}

uint64_t stack_find_auxiliary(pid_t process, uint64_t top, uint64_t kind)
{
	uint64_t at, found;

	errno = 0;
	at = top + 8 * (stack_peek(process, top) + 2);
	while (stack_peek(process, at))
		at += 8;
	at += 8;
	while ((found = stack_peek(process, at)) && found != kind)
		at += 16;
	return found ? at : 0;
}
