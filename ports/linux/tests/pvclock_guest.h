/* SPDX-License-Identifier: GPL-2.0 */
/*
 * A guest of KVM with one processor, for pvclock.c. It runs in real mode. In a loop it asks KVM for
 * the times and copies its page, and then stops at a port until it is run again.
 */
#include <errno.h>
#include <fcntl.h>
#include <linux/kvm.h>
#include <stddef.h>
#include <stdint.h>
#include <stdio.h>
#include <stdlib.h>
#include <string.h>
#include <sys/ioctl.h>
#include <sys/mman.h>
#include <time.h>
#include <unistd.h>

#define CODE 0x2000		/* where the guest has its code */

/* What a guest finds in its page (pvclock_vcpu_time_info). */
struct page {
	uint32_t version, pad;
	uint64_t tsc, nanos;
	uint32_t mult;
	int8_t shift;
	uint8_t flags, pads[2];
};

/* The guest's memory at 0x1000. */
struct shared {
	uint32_t wall_version, wall_sec, wall_nsec, pad;
	_Alignas(64) struct page page;
	_Alignas(64) uint64_t tsc;		/* when the copy was taken */
	int32_t refusal;			/* of the pairing: 0 or -KVM_EOPNOTSUPP */
	_Alignas(32) struct page copy;
	_Alignas(64) struct { int64_t sec, nsec; uint64_t tsc; uint32_t flags, pads[9]; } pair;
};

_Static_assert(sizeof(struct page) == 32, "");
_Static_assert(offsetof(struct shared, page) == 0x40 && offsetof(struct shared, tsc) == 0x80, "");
_Static_assert(offsetof(struct shared, copy) == 0xa0 && offsetof(struct shared, pair) == 0xc0, "");

extern const char guest[], guest_end[];
asm(".pushsection .rodata\n.code16\nguest:\n"
    "	movl $0x4b564d01, %ecx\n	movl $0x1041, %eax\n	xorl %edx, %edx\n	wrmsr\n"
    "0:	movl $0x4b564d00, %ecx\n	movl $0x1000, %eax\n	xorl %edx, %edx\n	wrmsr\n"
    "1:	movl 0x1040, %ebx\n	testb $1, %bl\n	jnz 1b\n"
    "	rdtsc\n	movl %eax, 0x1080\n	movl %edx, 0x1084\n"
    "	cld\n	movw $0x1040, %si\n	movw $0x10a0, %di\n	movw $16, %cx\n	rep movsw\n"
    "	cmpl 0x1040, %ebx\n	jne 1b\n"
    "	movl $9, %eax\n	movl $0x10c0, %ebx\n	xorl %ecx, %ecx\n	vmmcall\n"
    "	movl %eax, 0x1088\n	outb %al, $0x10\n	jmp 0b\n"
    "guest_end:\n.code64\n.popsection");

static int vm, vcpu, run_size;
static int is_new = 1;		/* whether the guest hasn't run */
static int64_t made_after, made_before;	/* MONOTONIC_RAW around the start of the guest's clock */
static uint64_t tsc_offset;	/* what the guest's TSC is ahead of the host's */
static struct kvm_run *run;
static struct shared *shared;

static void check(int result, const char *what)
{
	if (result >= 0)
		return;
	fprintf(stderr, "pvclock: %s: %s\n", what, strerror(errno));
	exit(1);
}

static int64_t raw_time(void)
{
	struct timespec time;

	clock_gettime(CLOCK_MONOTONIC_RAW, &time);
	return time.tv_sec * 1000000000LL + time.tv_nsec;
}

/* Makes a guest with 64 KiB of memory. */
static void make_guest(void)
{
	int kvm = open("/dev/kvm", O_RDWR);
	struct kvm_userspace_memory_region region = { .memory_size = 0x10000 };
	struct kvm_device_attr attr = { .group = KVM_VCPU_TSC_CTRL, .attr = KVM_VCPU_TSC_OFFSET,
					.addr = (uintptr_t)&tsc_offset };
	struct kvm_sregs sregs;
	struct kvm_regs regs = { .rip = CODE, .rflags = 2 };
	char *memory = mmap(NULL, 0x10000, PROT_READ | PROT_WRITE, MAP_SHARED | MAP_ANONYMOUS, -1, 0);

	if (vm) {
		munmap(run, run_size);
		close(vcpu);
		close(vm);
	}
	is_new = 1;
	check(kvm, "/dev/kvm");
	made_after = raw_time();
	check(vm = ioctl(kvm, KVM_CREATE_VM, 0), "KVM_CREATE_VM");
	made_before = raw_time();
	region.userspace_addr = (uintptr_t)memory;
	check(ioctl(vm, KVM_SET_USER_MEMORY_REGION, &region), "KVM_SET_USER_MEMORY_REGION");
	check(vcpu = ioctl(vm, KVM_CREATE_VCPU, 0), "KVM_CREATE_VCPU");
	check(run_size = ioctl(kvm, KVM_GET_VCPU_MMAP_SIZE, 0), "KVM_GET_VCPU_MMAP_SIZE");
	run = mmap(NULL, run_size, PROT_READ | PROT_WRITE, MAP_SHARED, vcpu, 0);
	check(ioctl(vcpu, KVM_GET_SREGS, &sregs), "KVM_GET_SREGS");
	sregs.cs.base = sregs.cs.selector = 0;
	check(ioctl(vcpu, KVM_SET_SREGS, &sregs), "KVM_SET_SREGS");
	check(ioctl(vcpu, KVM_SET_REGS, &regs), "KVM_SET_REGS");
	check(ioctl(vcpu, KVM_GET_DEVICE_ATTR, &attr), "KVM_VCPU_TSC_OFFSET");
	close(kvm);
	memcpy(memory + CODE, guest, guest_end - guest);
	shared = (struct shared *)(memory + 0x1000);
}

/* Runs the guest until it has written its times. */
static void run_guest(void)
{
	check(ioctl(vcpu, KVM_RUN, 0), "KVM_RUN");
	if (run->exit_reason == KVM_EXIT_IO)
		return;
	fprintf(stderr, "pvclock: the guest ended with exit %u\n", run->exit_reason);
	exit(1);
}
