/* SPDX-License-Identifier: MIT OR Apache-2.0 */
/* waited.c - finds threads that wait for files in the kernel. */
#define _GNU_SOURCE
#include "waited.h"

#include <sys/syscall.h>

/* Returns whether a thread may wait for a file in a call. */
static bool is_wait(long call)
{
	static const int CALLS[] = {
		SYS_read,	 SYS_readv,	  SYS_recvfrom,	   SYS_recvmsg,
		SYS_recvmmsg,	 SYS_accept,	  SYS_accept4,	   SYS_connect,
		SYS_write,	 SYS_writev,	  SYS_sendto,	   SYS_sendmsg,
		SYS_sendmmsg,	 SYS_splice,	  SYS_sendfile,	   SYS_vmsplice,
		SYS_tee,	 SYS_poll,	  SYS_ppoll,	   SYS_select,
		SYS_pselect6,	 SYS_epoll_wait,  SYS_epoll_pwait, SYS_epoll_pwait2,
		SYS_open,	 SYS_openat,	  SYS_msgsnd,	   SYS_msgrcv,
		SYS_mq_timedsend, SYS_mq_timedreceive, SYS_flock,  SYS_fcntl,
	};

	for (size_t i = 0; i < sizeof(CALLS) / sizeof(*CALLS); i++) {
		if (call == CALLS[i])
			return true;
	}
	return false;
}

bool waited_are_there(const struct tree *tree)
{
	for (size_t i = 0; i < tree->count; i++) {
		if (is_wait(tree->threads[i].call))
			return true;
	}
	return false;
}
