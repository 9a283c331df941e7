/* SPDX-License-Identifier: MIT OR Apache-2.0 */
/*
 * Executes a program with a filter of one system call, whose number follows.
 *
 *     filtered kill NUMBER PROGRAM ARGS..    it kills the program
 *     filtered deny NUMBER PROGRAM ARGS..    it fails with EPERM, as in some containers
 */
#define _GNU_SOURCE
#include <errno.h>
#include <linux/filter.h>
#include <linux/seccomp.h>
#include <stddef.h>
#include <stdint.h>
#include <stdlib.h>
#include <string.h>
#include <sys/prctl.h>
#include <unistd.h>

int main(int count, char **words)
{
	uint32_t number = count > 3 ? (uint32_t)atoi(words[2]) : 0;
	uint32_t action = count > 3 && !strcmp(words[1], "kill")
				  ? SECCOMP_RET_KILL_PROCESS
				  : SECCOMP_RET_ERRNO | EPERM;
	struct sock_filter code[] = {
		BPF_STMT(BPF_LD | BPF_W | BPF_ABS,
			 offsetof(struct seccomp_data, nr)),
		BPF_JUMP(BPF_JMP | BPF_JEQ | BPF_K, number, 0, 1),
		BPF_STMT(BPF_RET | BPF_K, action),
		BPF_STMT(BPF_RET | BPF_K, SECCOMP_RET_ALLOW),
	};
	struct sock_fprog program = { sizeof(code) / sizeof(*code), code };

	if (count < 4 || prctl(PR_SET_NO_NEW_PRIVS, 1, 0, 0, 0) ||
	    prctl(PR_SET_SECCOMP, SECCOMP_MODE_FILTER, &program))
		return EXIT_FAILURE;
	execvp(words[3], words + 3);
	return EXIT_FAILURE;
}
