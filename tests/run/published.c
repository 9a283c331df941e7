/* SPDX-License-Identifier: MIT OR Apache-2.0 */
/*
 * Sets REALTIME at each moment at which a read of it reads the host's clock. The read has loaded
 * the old clocks by then, and reads its counter after the new ones were published, so it must
 * return a time of the new ones. Before the library looks into the vDSO's head, this program puts
 * its own function there instead of the kernel's. Prints what is wrong, or that there is no function
 * to replace.
 */
#define _GNU_SOURCE
#include "gettimes.h"
#include "vdso_functions.h"

#include <sys/auxv.h>
#include <sys/mman.h>

enum { HEAD_BYTES = 4096 }; /* in front of the image: union image_head of run/image/image.h */

static gettime *kernels; /* clock_gettime */
static int rounds_left;	 /* readings at which REALTIME is set */
static int sets_at_once; /* at each of them */
static time_t last = 1000000000; /* second that was set */

static void set_real(void)
{
	const struct timespec time = { last += 1000, 0 };

	CHECK(!clock_settime(CLOCK_REALTIME, &time));
}

/* Acts as the kernel's function. The call that sets the clock reads the counter, too. */
static int set_and_read(clockid_t clock, struct timespec *out)
{
	int rounds = rounds_left;

	rounds_left = 0;
	if (clock != CLOCK_MONOTONIC_RAW) {
		rounds_left = rounds;
		return kernels(clock, out);
	}
	for (int i = 0; rounds && i < sets_at_once; i++)
		set_real();
	rounds_left = rounds ? rounds - 1 : 0;
	return kernels(clock, out);
}

/* Writes the function's address in front of the image. */
static void replace_function(void)
{
	char *image = (char *)getauxval(AT_SYSINFO_EHDR);
	gettime **head = (gettime **)(image - HEAD_BYTES);

	if (!image || mprotect(head, HEAD_BYTES, PROT_READ | PROT_WRITE) || !*head)
		return;
	kernels = *head;
	*head = set_and_read;
}

/* Runs before the library begins. */
__attribute__((section(".preinit_array"), used)) static void (*const first)(void) =
	replace_function;

/* A read tries once more after each round, whether one set or two have moved the clocks on. */
static void check_reads(gettime *read)
{
	struct timespec now;

	for (int rounds = 0; rounds < 4; rounds++) {
		for (sets_at_once = 1; sets_at_once < 3; sets_at_once++) {
			rounds_left = rounds;
			CHECK(!read(CLOCK_REALTIME, &now) && is_after(now.tv_sec, last));
			CHECK(!rounds_left);
		}
	}
}

int main(void)
{
	if (!kernels) {
		puts("the vDSO has no function to replace");
		return 0;
	}
	check_reads((gettime *)find_function((const char *)getauxval(AT_SYSINFO_EHDR),
					     "__vdso_clock_gettime"));
	check_reads(clock_gettime);
	return faults > 0;
}
