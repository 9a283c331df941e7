/* SPDX-License-Identifier: MIT OR Apache-2.0 */
/* How backtraces.c steps through a call on x86-64: by the processor's trap flag. */
#ifndef BACKTRACES_X86_64_H
#define BACKTRACES_X86_64_H

enum {
	TRAP_FLAG = 0x100,
	KEPT = 6, /* registers that a function leaves as they were */
};

/* The linker makes a call of a function one of its wrapper, which sets the trap flag: the first
 * trap is at the function's first instruction. */
#define STEPPED(function)                                   \
	__asm__(".globl __wrap_" #function "\n"             \
		"__wrap_" #function ":\n"                   \
		"	pushf\n"                            \
		"	orl $0x100, (%rsp)\n"               \
		"	popf\n"                             \
		"	jmp __real_" #function "\n");

/* rbx, rbp and r12 to r15, by their numbers in DWARF and in a signal's context. */
static const int dwarf[KEPT] = { 3, 6, 12, 13, 14, 15 };
static const int saved[KEPT] = { REG_RBX, REG_RBP, REG_R12, REG_R13, REG_R14, REG_R15 };

static void prepare_steps(void)
{
}

static uint64_t address_in(const ucontext_t *context)
{
	return (uint64_t)context->uc_mcontext.gregs[REG_RIP];
}

/* Whether the instruction is the first one of a call. */
static bool is_first(const struct caller *caller)
{
	return !caller->is_called;
}

static void begin_call(struct caller *caller, const ucontext_t *context)
{
	const greg_t *registers = context->uc_mcontext.gregs;
	const uint64_t *stack = (const uint64_t *)(uintptr_t)registers[REG_RSP];

	caller->address = *stack;
	caller->stack = (uint64_t)(uintptr_t)(stack + 1);
	for (int i = 0; i < KEPT; i++)
		caller->kept[i] = (uint64_t)registers[saved[i]];
}

/* Ends the steps if the call has returned. */
static bool has_returned(const struct caller *caller, ucontext_t *context)
{
	greg_t *registers = context->uc_mcontext.gregs;

	if (address_in(context) != caller->address
	    || (uint64_t)registers[REG_RSP] != caller->stack)
		return false;
	registers[REG_EFL] &= ~TRAP_FLAG;
	return true;
}

static void run_instruction(uint64_t address)
{
	(void)address;
}

#endif
