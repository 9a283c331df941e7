/* SPDX-License-Identifier: MIT OR Apache-2.0 */
/*
 * How backtraces.c steps through a call on AArch64, which lets no process set a trap flag: each
 * instruction of the library is a breakpoint, except the one that runs next. The library is a shared
 * object, whose code has TEXT_SIZE bytes at TEXT_START.
 */
#ifndef BACKTRACES_AARCH64_H
#define BACKTRACES_AARCH64_H

#include <dlfcn.h>
#include <sys/mman.h>

#define BREAKPOINT UINT32_C(0xd4200000) /* brk #0 */

enum {
	KEPT = 19, /* registers that a function leaves as they were */
	GENERAL = 11, /* of them x19 to x29; the others are d8 to d15 */
	WORDS = TEXT_SIZE / 4,
};

/* The linker makes a call of a function one of its wrapper. */
#define STEPPED(function)                                   \
	__asm__(".globl __wrap_" #function "\n"             \
		"__wrap_" #function ":\n"                   \
		"	adrp x16, is_beginning\n"           \
		"	mov w17, #1\n"                      \
		"	strb w17, [x16, :lo12:is_beginning]\n" \
		"	b __real_" #function "\n");

extern bool is_beginning;
bool is_beginning;

/* By their numbers in DWARF. */
static const int dwarf[KEPT] = { 19, 20, 21, 22, 23, 24, 25, 26, 27, 28,
				 29, 72, 73, 74, 75, 76, 77, 78, 79 };

static uint32_t *code, instructions[WORDS]; /* the library's code, and a copy */
static uint32_t *running; /* the one that is no breakpoint */

static void put(uint32_t *place, uint32_t instruction)
{
	*place = instruction;
	__builtin___clear_cache((char *)place, (char *)(place + 1));
}

static void prepare_steps(void)
{
	const long page = sysconf(_SC_PAGESIZE);
	uintptr_t start;
	Dl_info found;

	/* (the program's own tkc_version is the wrapper) */
	if (!dladdr(dlsym(RTLD_DEFAULT, "tkc_version"), &found))
		_exit(EXIT_FAILURE);
	code = (uint32_t *)((uintptr_t)found.dli_fbase + TEXT_START);
	start = (uintptr_t)code & -(uintptr_t)page;
	if (mprotect((void *)start, (uintptr_t)code + TEXT_SIZE - start,
		     PROT_READ | PROT_WRITE | PROT_EXEC)) {
		perror("backtraces: mprotect");
		_exit(EXIT_FAILURE);
	}
	memcpy(instructions, code, TEXT_SIZE);
	for (int i = 0; i < WORDS; i++)
		put(&code[i], BREAKPOINT);
}

static uint64_t address_in(const ucontext_t *context)
{
	return context->uc_mcontext.pc;
}

static bool is_first(const struct caller *caller)
{
	const bool first = is_beginning;

	(void)caller;
	is_beginning = false;
	return first;
}

static void begin_call(struct caller *caller, const ucontext_t *context)
{
	const mcontext_t *registers = &context->uc_mcontext;
	const struct fpsimd_context *vectors = (const void *)registers->__reserved;

	caller->address = registers->regs[30];
	caller->stack = registers->sp;
	for (int i = 0; i < GENERAL; i++)
		caller->kept[i] = registers->regs[19 + i];
	if (vectors->head.magic != FPSIMD_MAGIC)
		_exit(EXIT_FAILURE);
	for (int i = 0; i < KEPT - GENERAL; i++)
		caller->kept[GENERAL + i] = (uint64_t)vectors->vregs[8 + i];
}

static bool has_returned(const struct caller *caller, ucontext_t *context)
{
	(void)caller;
	(void)context;
	return false;
}

static void run_instruction(uint64_t address)
{
	if (running)
		put(running, BREAKPOINT);
	running = (uint32_t *)(uintptr_t)address;
	put(running, instructions[running - code]);
}

#endif
