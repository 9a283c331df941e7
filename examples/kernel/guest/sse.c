// SPDX-License-Identifier: GPL-2.0
/*
 * Keeps a pattern in the SSE registers until it gets SIGTERM, and then prints
 * in how many rounds a register changed. Its status is 1 if one did.
 */
#include <signal.h>
#include <stdint.h>
#include <stdio.h>

static volatile sig_atomic_t is_over;

static void end(int number)
{
	(void)number;
	is_over = 1;
}

/* Spins with the pattern in xmm0 to xmm7, and returns how many changed. */
static unsigned int spin(uint64_t pattern, uint64_t turns)
{
	uint64_t out[16];
	unsigned int changed = 0;

	__asm__ volatile("movq %[p], %%xmm0\n\t"
			 "punpcklqdq %%xmm0, %%xmm0\n\t"
			 "movdqa %%xmm0, %%xmm1\n\t"
			 "movdqa %%xmm0, %%xmm2\n\t"
			 "movdqa %%xmm0, %%xmm3\n\t"
			 "movdqa %%xmm0, %%xmm4\n\t"
			 "movdqa %%xmm0, %%xmm5\n\t"
			 "movdqa %%xmm0, %%xmm6\n\t"
			 "movdqa %%xmm0, %%xmm7\n"
			 "1:\n\t"
			 "pause\n\t"
			 "dec %[n]\n\t"
			 "jnz 1b\n\t"
			 "movdqu %%xmm0, 0(%[out])\n\t"
			 "movdqu %%xmm1, 16(%[out])\n\t"
			 "movdqu %%xmm2, 32(%[out])\n\t"
			 "movdqu %%xmm3, 48(%[out])\n\t"
			 "movdqu %%xmm4, 64(%[out])\n\t"
			 "movdqu %%xmm5, 80(%[out])\n\t"
			 "movdqu %%xmm6, 96(%[out])\n\t"
			 "movdqu %%xmm7, 112(%[out])\n\t"
			 : [n] "+r"(turns)
			 : [p] "r"(pattern), [out] "r"(out)
			 : "xmm0", "xmm1", "xmm2", "xmm3", "xmm4", "xmm5",
			   "xmm6", "xmm7", "memory", "cc");
	for (int i = 0; i < 16; i++)
		changed += out[i] != pattern;
	return changed;
}

int main(void)
{
	uint64_t pattern = 0x9e3779b97f4a7c15, rounds = 0, wrong = 0;

	signal(SIGTERM, end);
	for (; !is_over; rounds++) {
		wrong += spin(pattern, 20000) != 0;
		pattern = pattern * 6364136223846793005 + 1442695040888963407;
	}
	printf("sse: %llu rounds, registers changed in %llu\n",
	       (unsigned long long)rounds, (unsigned long long)wrong);
	return wrong != 0;
}
