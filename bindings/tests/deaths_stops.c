/* SPDX-License-Identifier: MIT OR Apache-2.0 */
/* Stops a program before each of its accesses to the memory: the access faults, a handler lets the
 * processor do this one instruction, and after it takes the rights away again. */
#define _GNU_SOURCE

#include "deaths.h"

#include <signal.h>
#include <string.h>
#include <sys/mman.h>
#include <ucontext.h>
#include <unistd.h>

enum { IS_STORE = 2 /* in the code of a fault */, STEPS = 0x100 /* in the flags */ };

void *memory, *alias;
struct stored stores[STORES];
int store_count;

static stop_call *stopped;
static int rights, accesses, is_store;
static size_t place;

static void set_rights(int wanted)
{
	if (mprotect(memory, DEATHS_SIZE, wanted))
		fail("no rights can be set");
}

static void before(int signal, siginfo_t *info, void *context)
{
	ucontext_t *at = context;
	size_t found = (size_t)((char *)info->si_addr - (char *)memory);

	(void)signal;
	if (found >= DEATHS_SIZE)
		fail("an access to other memory");
	place = found / 8;
	is_store = (at->uc_mcontext.gregs[REG_ERR] & IS_STORE) != 0;
	stopped(accesses++, place);
	set_rights(PROT_READ | PROT_WRITE);
	at->uc_mcontext.gregs[REG_EFL] |= STEPS;
}

static void after(int signal, siginfo_t *info, void *context)
{
	ucontext_t *at = context;

	(void)signal;
	(void)info;
	at->uc_mcontext.gregs[REG_EFL] &= ~(long long)STEPS;
	set_rights(rights);
	if (!is_store)
		return;
	if (store_count == STORES)
		fail("too many stores");
	stores[store_count].place = place;
	stores[store_count++].value = ((uint64_t *)alias)[place];
}

static void handle(int signal, void (*handler)(int, siginfo_t *, void *))
{
	struct sigaction action;

	memset(&action, 0, sizeof(action));
	action.sa_sigaction = handler;
	action.sa_flags = SA_SIGINFO;
	if (sigaction(signal, &action, NULL))
		fail("no handler can be set");
}

void stop_accesses(stop_call *call, int loads_too)
{
	if (!call) {
		set_rights(PROT_READ | PROT_WRITE);
		return;
	}
	stopped = call;
	accesses = store_count = 0;
	rights = loads_too ? PROT_NONE : PROT_READ;
	handle(SIGSEGV, before);
	handle(SIGTRAP, after);
	set_rights(rights);
}

void map_memory(void)
{
	int file = memfd_create("deaths", 0);

	if (file < 0 || ftruncate(file, DEATHS_SIZE))
		fail("no memory can be shared");
	memory = mmap(NULL, DEATHS_SIZE, PROT_READ | PROT_WRITE, MAP_SHARED, file, 0);
	alias = mmap(NULL, DEATHS_SIZE, PROT_READ | PROT_WRITE, MAP_SHARED, file, 0);
	if (memory == MAP_FAILED || alias == MAP_FAILED)
		fail("no memory can be mapped");
	close(file);
}
