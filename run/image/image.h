/* SPDX-License-Identifier: MIT OR Apache-2.0 */
/* image.h - the vDSO of the programs of a run. */
#ifndef IMAGE_H
#define IMAGE_H

#include "clocks/counter.h"

#include <elf.h>
#include <string.h>

enum { PAGE_BYTES = 4096 };

/* What is in front of the image, in its own page. In front of that page is the
 * file `page` of the clocks. */
union image_head {
	struct {
		/* the kernel's own vDSO's, or NULL if it can't read clocks */
		host_clock *gettime;
		uint64_t makes_calls; /* a record, or the cost of a read, needs calls */
		/* what the kernel's own vDSO offers apart from clocks */
		uint64_t getcpu, getrandom, sgx_enter_enclave;
	};
	char bytes[PAGE_BYTES];
};

enum {
	SHARED_BYTES = (sizeof(struct shared_page) + PAGE_BYTES - 1) /
		       PAGE_BYTES * PAGE_BYTES,
	HEAD_BYTES = sizeof(union image_head),
};

/* The bytes by which the image differs from the kernel's own vDSO, at EI_PAD. tools/build_run
 * writes them. */
#define IMAGE_MARK "tkrun 1"

/* Returns the head of the image, or NULL if another vDSO is at this address. */
static inline const union image_head *image_head_of(uint64_t vdso)
{
	if (!vdso || memcmp((const char *)vdso + EI_PAD, IMAGE_MARK,
			    EI_NIDENT - EI_PAD) != 0)
		return NULL;
	return (const union image_head *)(vdso - HEAD_BYTES);
}

/* The bytes of the image. */
extern const char image_start[] __attribute__((visibility("hidden")));
extern const char image_end[] __attribute__((visibility("hidden")));

/* Lets programs have the image. */
void image_offer(const struct machine *machine);

/* Gives the image to a thread that has just executed a program, and is traced.
 * Returns the image's address, or 0 if the program can't have it. `vdso` is the
 * address of the kernel's own vDSO. */
uint64_t image_give(pid_t thread, uint64_t vdso);

#endif
