/* SPDX-License-Identifier: MIT OR Apache-2.0 */
/*
 * calls_vdso.c - changes the kernel's vDSO in a process whose program tkrun couldn't trace: its
 * functions jump to those of the image, which is mapped next to the clocks' page as tkrun maps it
 * (run/static/give_image.c). They need neither the thread-local variables of this library nor a
 * right of tkrun.
 */
#define _GNU_SOURCE
#include "calls.h"
#include "image/image.h"
#include "image/symbols.h"

#include <sys/mman.h>
#include <sys/syscall.h>

static const char *const READS[] = { "__vdso_clock_gettime", "__vdso_gettimeofday", "__vdso_time",
				     "__vdso_clock_getres" };

static bool protect(const void *memory, size_t size, int rights)
{
	return !host_call(SYS_mprotect, (long)memory, (long)size, rights, 0, 0, 0);
}

/* Maps the page at an address. */
static bool map_page(char *at)
{
	long file = host_ask_file(FILE_PAGE);
	long result;

	if (file < 0)
		return false;
	result = host_call(SYS_mmap, (long)at, SHARED_BYTES, PROT_READ, MAP_SHARED | MAP_FIXED,
			   file, 0);
	host_call(SYS_close, file, 0, 0, 0, 0, 0);
	return result == (long)at;
}

/* Maps the page, the head and the image. The head has no function of the kernel's, which are
 * changed. Returns the image's address, or NULL. */
static char *map_image(const struct machine *m)
{
	size_t size = (size_t)(image_end - image_start), code = HEAD_BYTES + size;
	long at = host_call(SYS_mmap, 0, SHARED_BYTES + (long)code, PROT_READ | PROT_WRITE,
			    MAP_PRIVATE | MAP_ANONYMOUS, -1, 0);
	char *start = (char *)at + SHARED_BYTES;
	union image_head *head = (union image_head *)start;

	if (at < 0)
		return NULL;
	head->makes_calls = m->control && m->control->rows.looks_every;
	memcpy(start + HEAD_BYTES, image_start, size);
	if (map_page((char *)at) && protect(start, code, PROT_READ | PROT_EXEC))
		return start + HEAD_BYTES;
	host_call(SYS_munmap, at, SHARED_BYTES + (long)code, 0, 0, 0, 0);
	return NULL;
}

/* Makes of a function: movabs $target, %rax; jmp *%rax. */
static void make_jump(char *function, uint64_t target)
{
	static const char LOAD[] = { 0x48, (char)0xb8 }, JUMP[] = { (char)0xff, (char)0xe0 };

	memcpy(function, LOAD, sizeof(LOAD));
	memcpy(function + sizeof(LOAD), &target, sizeof(target));
	memcpy(function + sizeof(LOAD) + sizeof(target), JUMP, sizeof(JUMP));
}

/* The pages of the vDSO become this process's own. */
bool vdso_change(const struct machine *m, uint64_t vdso)
{
	char *mapped = map_image(m);
	struct segment kernel = segment_at(vdso), image = segment_at((uint64_t)mapped);

	if (!mapped || !protect(kernel.base, kernel.size, PROT_READ | PROT_WRITE))
		return false;
	for (size_t i = 0; i < sizeof(READS) / sizeof(*READS); i++) {
		uint64_t from = segment_function(&kernel, READS[i]);
		uint64_t to = segment_function(&image, READS[i]);

		if (from && to)
			make_jump((char *)vdso + from, (uint64_t)mapped + to);
	}
	return protect(kernel.base, kernel.size, PROT_READ | PROT_EXEC);
}
