/* SPDX-License-Identifier: GPL-2.0 */
/*
 * Calls of the library use SSE registers, and a tick may interrupt kernel_fpu_begin(), when the
 * registers hold another's values. So each change saves them when it begins (tk_begin), and restores
 * them when it ends.
 *
 * All calls are under timekeeper_lock with interrupts off, and none is made in an NMI, so one place
 * to save them is enough. The instructions of SSE leave the upper halves of the AVX registers
 * unchanged.
 */
static u8 tk_xmm[16][16] __aligned(16);

#define TK_XMM_SAVE(n)	asm volatile("movaps %%xmm" #n ", %0" : "=m" (tk_xmm[n]))
#define TK_XMM_LOAD(n)	asm volatile("movaps %0, %%xmm" #n : : "m" (tk_xmm[n]))
#define TK_XMM_EACH(move) do {							\
	move(0); move(1); move(2); move(3); move(4); move(5); move(6); move(7);	\
	move(8); move(9); move(10); move(11); move(12); move(13); move(14);	\
	move(15);								\
} while (0)

static void tk_sse_save(void)
{
	TK_XMM_EACH(TK_XMM_SAVE);
}

static void tk_sse_restore(void)
{
	TK_XMM_EACH(TK_XMM_LOAD);
}

/* Lets the kernel use SSE instructions before it has initialized the FPU. */
static void tk_sse_enable(void)
{
	cr4_set_bits(X86_CR4_OSFXSR);
}
