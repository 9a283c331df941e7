/* SPDX-License-Identifier: GPL-2.0 */
/* Calls while the SSE registers have numbers, for process.c. */

#define ALL(of) of(0) of(1) of(2) of(3) of(4) of(5) of(6) of(7) of(8) of(9) of(10) of(11) of(12) \
		of(13) of(14) of(15)
#define DESTROY(n) "pcmpeqd %%xmm" #n ", %%xmm" #n "\n\t"
#define LOAD(n) "movaps 16*" #n "(%%rbx), %%xmm" #n "\n\t"
#define STORE(n) "movaps %%xmm" #n ", 256+16*" #n "(%%rbx)\n\t"
#define SSE_REGISTERS "xmm0", "xmm1", "xmm2", "xmm3", "xmm4", "xmm5", "xmm6", "xmm7", "xmm8", \
		"xmm9", "xmm10", "xmm11", "xmm12", "xmm13", "xmm14", "xmm15"

/* Destroys the SSE registers in the middle of a change, as a call of the library may. */
static void destroy_sse(void)
{
	asm volatile(ALL(DESTROY) : : : SSE_REGISTERS);
}

#undef raw_notifier_call_chain
#define raw_notifier_call_chain(head, was_set, tk) \
	((void)(head), (void)(was_set), (void)(tk), destroy_sse())

/* Makes a call while the SSE registers contain xmm[0], and stores what they contain after it. */
static void call_with_sse(void (*call)(void), u8 xmm[2][16][16])
{
	asm volatile("mov %%rsp, %%r14\n\t"
		     "sub $128, %%rsp\n\t"	/* (what is below the stack may be in use) */
		     "and $-16, %%rsp\n\t"
		     ALL(LOAD)
		     "call *%%rax\n\t"
		     ALL(STORE)
		     "mov %%r14, %%rsp"
		     : "+a"(call) : "b"(xmm)
		     : "rcx", "rdx", "rsi", "rdi", "r8", "r9", "r10", "r11", "r14", "cc", "memory",
		       SSE_REGISTERS);
}
