/* SPDX-License-Identifier: MIT OR Apache-2.0 */
/*
 * give_image.c - gives a program the image of run/image/image.c as its vDSO. tkrun traces the
 * thread that has just executed the program, and lets it make the system calls that map the file
 * of the clocks, and memory for the image.
 */
#define _GNU_SOURCE
#include "random.h"
#include "image/image.h"
#include "image/symbols.h"
#include "processes/status.h"

#include <elf.h>
#include <errno.h>
#include <fcntl.h>
#include <signal.h>
#include <stdio.h>
#include <string.h>
#include <sys/auxv.h>
#include <sys/mman.h>
#include <sys/ptrace.h>
#include <sys/syscall.h>
#include <sys/uio.h>
#include <sys/user.h>
#include <sys/wait.h>

enum {
	CALL_STOP = SIGTRAP | 0x80, /* by PTRACE_O_TRACESYSGOOD */
	ERESTARTSYS = 512,	    /* of the kernel's errno.h: a signal comes */
};

/* Places in the kernel's vDSO, which is the same in each program: of an
 * instruction `syscall`, and of functions. 0 means that there is none. */
static struct {
	uint64_t call, gettime, getcpu, getrandom, sgx_enter_enclave;
} vdso;

static union image_head head;
static bool is_offered;
static uint64_t filters; /* of a program that has added none */

static uint64_t filter_count(int process)
{
	char status[STATUS_BYTES];

	if (!status_read(process, status))
		return 0;
	return status_number(status, "Seccomp_filters", 10);
}

/* The vDSO is that of tkrun itself. */
static void find_functions(const struct segment *segment)
{
	vdso.gettime = segment_function(segment, "__vdso_clock_gettime");
	vdso.getcpu = segment_function(segment, "__vdso_getcpu");
	if (!random_is_seeded())
		vdso.getrandom = segment_function(segment, "__vdso_getrandom");
	vdso.sgx_enter_enclave =
		segment_function(segment, "__vdso_sgx_enter_enclave");
}

void image_offer(const struct machine *machine)
{
	bool calls_host = machine->shared->calls_host;
	struct segment segment =
		segment_at(getauxval(AT_SYSINFO_EHDR));
	const char *call = segment.size ? memmem(segment.base, segment.size,
						 "\x0f\x05", 2)
					: NULL;

	vdso.call = call ? (uint64_t)(call - segment.base) : 0;
	find_functions(&segment);
	if (calls_host)
		vdso.gettime = 0;
	filters = filter_count((int)getpid()) + 1;
	head.makes_calls = machine->control->rows.looks_every > 0;
	is_offered = vdso.call && (vdso.gettime || calls_host ||
				   machine->shared->kind != COUNTER_RAW);
}

/* A thread that has executed a program, with its registers then. */
struct target {
	pid_t thread;
	uint64_t vdso; /* the address of the kernel's own */
	uint64_t call; /* that of an instruction `syscall` */
	struct user_regs_struct start;
};

/* Lets a thread go on to the beginning or the end of a system call, with the
 * signals that come. Returns false if it has ended: its status stays. */
static bool go_on(pid_t thread)
{
	siginfo_t info;
	long number = 0;

	for (;;) {
		if (ptrace(PTRACE_SYSCALL, thread, 0, number) ||
		    waitid(P_PID, (id_t)thread, &info, WSTOPPED | __WALL))
			return false;
		if (info.si_status == CALL_STOP)
			return true;
		number = info.si_status >> 8 ? 0 : info.si_status;
	}
}

/* Lets the thread make a system call. Returns its result, or minus an error. */
static long make_call(const struct target *target, long number, uint64_t a,
		      uint64_t b, uint64_t c, uint64_t d, uint64_t e)
{
	struct user_regs_struct registers = target->start;

	registers.rip = target->call;
	registers.orig_rax = UINT64_MAX; /* no call to restart */
	registers.rax = (uint64_t)number;
	registers.rdi = a;
	registers.rsi = b;
	registers.rdx = c;
	registers.r10 = d;
	registers.r8 = e;
	registers.r9 = 0;
	if (ptrace(PTRACE_SETREGS, target->thread, 0, &registers) ||
	    !go_on(target->thread) || !go_on(target->thread) ||
	    ptrace(PTRACE_GETREGS, target->thread, 0, &registers))
		return -ESRCH;
	return (long)registers.rax;
}

/* Maps the file of the clocks at an address. A thread of tkrun answers the first
 * call meanwhile. A signal may come before that, also one that is ignored. */
static bool map_page(const struct target *target, uint64_t at)
{
	long file, result;

	do {
		file = make_call(target, CALL_FILE, FILE_PAGE, 0, 0, 0, 0);
	} while (file == -ERESTARTSYS);
	if (file < 0)
		return false;
	result = make_call(target, SYS_mmap, at, SHARED_BYTES, PROT_READ,
			   MAP_SHARED | MAP_FIXED, (uint64_t)file);
	make_call(target, SYS_close, (uint64_t)file, 0, 0, 0, 0);
	return result == (long)at;
}

/* Returns the address of one of the functions, or of image_none. */
static uint64_t place_of(uint64_t base, uint64_t function, uint64_t image)
{
	const Elf64_Ehdr *start = (const Elf64_Ehdr *)image_start;

	return function ? base + function : image + start->e_entry;
}

/* Copies the head to an address, and the image after it. */
static bool copy_image(const struct target *target, uint64_t at)
{
	uint64_t base = target->vdso, image = at + HEAD_BYTES;
	size_t size = (size_t)(image_end - image_start);
	struct iovec here[2] = { { &head, HEAD_BYTES },
				 { (void *)image_start, size } };
	struct iovec there = { (void *)at, HEAD_BYTES + size };

	head.gettime = vdso.gettime ? (host_clock *)(base + vdso.gettime)
				    : NULL;
	head.getcpu = place_of(base, vdso.getcpu, image);
	head.getrandom = place_of(base, vdso.getrandom, image);
	head.sgx_enter_enclave =
		place_of(base, vdso.sgx_enter_enclave, image);
	return process_vm_writev(target->thread, here, 2, &there, 1, 0) ==
	       (ssize_t)there.iov_len;
}

/* Maps all. Returns the image's address, or 0 if it can't. */
static uint64_t map_all(const struct target *target)
{
	size_t code = (size_t)(image_end - image_start) + HEAD_BYTES;
	size_t size = SHARED_BYTES + code;
	long at = make_call(target, SYS_mmap, 0, size, PROT_READ | PROT_WRITE,
			    MAP_PRIVATE | MAP_ANONYMOUS, UINT64_MAX);
	uint64_t page = (uint64_t)at, start = page + SHARED_BYTES;

	if (at < 0)
		return 0;
	if (copy_image(target, start) && map_page(target, page) &&
	    !make_call(target, SYS_mprotect, start, code, PROT_READ | PROT_EXEC,
		       0, 0))
		return start + HEAD_BYTES;
	make_call(target, SYS_munmap, page, size, 0, 0, 0);
	return 0;
}

/* A filter of the program's own might end it for one of these calls. */
uint64_t image_give(pid_t thread, uint64_t base)
{
	struct target target = { .thread = thread,
				 .vdso = base,
				 .call = base + vdso.call };
	uint64_t image;

	if (!is_offered || filter_count(thread) != filters || !go_on(thread) ||
	    ptrace(PTRACE_GETREGS, thread, 0, &target.start))
		return 0;
	image = map_all(&target);
	ptrace(PTRACE_SETREGS, thread, 0, &target.start);
	return image;
}
