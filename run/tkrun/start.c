/* SPDX-License-Identifier: MIT OR Apache-2.0 */
/* start.c - starts the program of a run. */
#define _GNU_SOURCE
#include "tkrun.h"
#include "image/image.h"
#include "processes/uncovered.h"

#include <errno.h>
#include <fcntl.h>
#include <linux/capability.h>
#include <linux/prctl.h>
#include <poll.h>
#include <stdio.h>
#include <stdlib.h>
#include <string.h>
#include <sys/prctl.h>
#include <sys/resource.h>
#include <sys/socket.h>
#include <sys/syscall.h>
#include <sys/wait.h>
#include <unistd.h>

/* A call that the library doesn't answer must not set the host's clock. So
 * neither the program nor a file that it runs may get CAP_SYS_TIME. Who may not
 * bound the capabilities of these files lets none of them get more rights than
 * the caller has: sudo doesn't work then. */
static void drop_sys_time(void)
{
	struct __user_cap_header_struct header = {
		.version = _LINUX_CAPABILITY_VERSION_3
	};
	struct __user_cap_data_struct data[2];

	if (prctl(PR_CAPBSET_DROP, CAP_SYS_TIME, 0, 0, 0))
		prctl(PR_SET_NO_NEW_PRIVS, 1, 0, 0, 0);
	prctl(PR_CAP_AMBIENT, PR_CAP_AMBIENT_LOWER, CAP_SYS_TIME, 0, 0);
	if (syscall(SYS_capget, &header, data))
		return;
	data[0].effective &= ~(1U << CAP_SYS_TIME);
	data[0].permitted &= ~(1U << CAP_SYS_TIME);
	data[0].inheritable &= ~(1U << CAP_SYS_TIME);
	syscall(SYS_capset, &header, data);
}

/* Sends an errno or 0, with a file, or with none if it is negative: what became
 * of the filter if there is to be one, and then why the program can't be run. */
static void send_report(int socket, int error, int file)
{
	union {
		struct cmsghdr head;
		char bytes[CMSG_SPACE(sizeof(int))];
	} part = { .head = { CMSG_LEN(sizeof(int)), SOL_SOCKET, SCM_RIGHTS } };
	struct iovec text = { &error, sizeof(error) };
	struct msghdr message = { .msg_iov = &text, .msg_iovlen = 1 };

	if (file >= 0) {
		memcpy(CMSG_DATA(&part.head), &file, sizeof(file));
		message.msg_control = &part;
		message.msg_controllen = sizeof(part);
	}
	(void)!sendmsg(socket, &message, 0);
}

/* Receives a report. Returns false if there is none, since the program runs.
 * `file` becomes the file that came with it, or -1. */
static bool receive_report(int socket, int *error, int *file)
{
	union {
		struct cmsghdr head;
		char bytes[CMSG_SPACE(sizeof(int))];
	} part = { 0 };
	struct iovec text = { error, sizeof(*error) };
	struct msghdr message = { .msg_iov = &text,
				  .msg_iovlen = 1,
				  .msg_control = &part,
				  .msg_controllen = sizeof(part) };

	*file = -1;
	if (recvmsg(socket, &message, MSG_CMSG_CLOEXEC) != sizeof(*error))
		return false;
	if (CMSG_FIRSTHDR(&message))
		memcpy(file, CMSG_DATA(&part.head), sizeof(*file));
	return true;
}

/* Installs the filter. Without one nothing holds the child back until tkrun has
 * read the report, so it ends here if it needs the filter. */
static void install_filter(int socket, bool needs_filter)
{
	int file = filter_install();

	send_report(socket, file < 0 ? -file : 0, file);
	if (file >= 0)
		close(file);
	else if (needs_filter)
		_exit(STATUS_FAILED);
}

/* Lets the program belong to no node, also if this tkrun is inside another one. */
static void leave_nodes(const struct run *run)
{
	struct rlimit limit;

	if (run->count == 1 || getrlimit(RLIMIT_LOCKS, &limit))
		return;
	limit.rlim_cur = limit.rlim_max;
	setrlimit(RLIMIT_LOCKS, &limit);
}

/* Becomes the program, or reports an error. */
static void become_program(const struct run *run, int socket, bool needs_filter)
{
	char **program = run->nodes->options.program;

	install_filter(socket, needs_filter);
	drop_sys_time();
	signals_restore();
	leave_nodes(run);
	if (!setenv("TKRUN", run->nodes->folder, 1))
		execvp(*program, program);
	send_report(socket, errno, -1);
	_exit(STATUS_NOT_FOUND);
}

/* Returns whether PROGRAM is a static file, as execvp finds it. */
static bool is_static_program(const char *program)
{
	const char *next = getenv("PATH");
	char path[PATH_MAX];

	if (strchr(program, '/'))
		return is_static_file(program);
	while (next && *next) {
		size_t length = strcspn(next, ":");

		snprintf(path, sizeof(path), "%.*s/%s", (int)length, next,
			 program);
		if (!access(path, X_OK))
			return is_static_file(path);
		next += length + (next[length] == ':');
	}
	return false;
}

/* Lets the child execute the program, or report that it can't. Returns an errno,
 * or 0. */
static int serve_start(struct run *run, int socket)
{
	struct pollfd files[2] = { { socket, POLLIN, 0 },
				   { run->execs, POLLIN, 0 } };
	siginfo_t info;
	int error, file;

	for (;;) {
		poll(files, 2, 1);
		serve_execs(run);
		info.si_pid = 0;
		if (!waitid(P_PID, (id_t)run->child, &info,
			    WSTOPPED | WNOHANG | __WALL) &&
		    info.si_pid)
			exec_stopped(run->child, W_STOPCODE(info.si_status));
		if (files[0].revents)
			return receive_report(socket, &error, &file) ? error
								     : 0;
	}
}

static void stop_child(const struct run *run)
{
	kill(run->child, SIGKILL);
	waitpid(run->child, NULL, __WALL);
}

/* Opens the files of all clocks. */
static bool open_files(struct run *run)
{
	bool is_open = true;

	for (size_t i = 0; i < run->count; i++) {
		run->nodes[i].machine.shared->has_filter = true;
		is_open = is_open && files_open(i, run->nodes[i].folder);
	}
	return is_open;
}

/* Starts the threads that answer the calls. */
static void answer_calls(struct run *run)
{
	image_offer(&run->nodes->machine);
	run->execs = open_files(run) ? execs_open() : -1;
	if (run->execs >= 0 && sleepers_start(run->listener) &&
	    answers_start(run->listener))
		return;
	stop_child(run);
	fail(STATUS_FAILED, "cannot answer system calls: %s", strerror(errno));
}

/* Goes on without a filter, unless --static is there or a static program would read the host's
 * clocks. */
static void miss_filter(struct run *run, bool is_static, int error)
{
	char reason[128];

	if (run->nodes->options.is_static) {
		stop_child(run);
		fail(STATUS_FAILED,
		     "--static: the kernel lets no filter ask tkrun: %s",
		     strerror(error));
	}
	snprintf(reason, sizeof(reason),
		 "it is static, and the kernel lets no filter ask tkrun: %s",
		 strerror(error));
	if (is_static)
		uncovered_note(*run->nodes->options.program, run->child, reason);
	else if (!run->nodes->options.is_quiet)
		fprintf(stderr,
			"tkrun: the kernel lets no filter ask tkrun: %s: a program without "
			"the library is found only if it runs for 0.2 s\n",
			strerror(error));
	if (!uncovered_is_over())
		return;
	stop_child(run);
	exit(STATUS_UNCOVERED);
}

/* Takes the filter's listener, and answers its calls. */
static void take_filter(struct run *run, int socket, bool is_static)
{
	int error = EIO;

	receive_report(socket, &error, &run->listener);
	if (run->listener >= 0)
		answer_calls(run);
	else
		miss_filter(run, is_static, error);
}

static void check_start(struct run *run, int error)
{
	if (error && run->child > 0)
		waitpid(run->child, NULL, __WALL);
	if (error)
		fail(run->child < 0    ? STATUS_FAILED
		     : error == ENOENT ? STATUS_NOT_FOUND
				       : STATUS_NOT_RUN,
		     "cannot run '%s': %s", *run->nodes->options.program,
		     strerror(error));
}

void start_program(struct run *run)
{
	bool is_static = is_static_program(*run->nodes->options.program);
	bool needs_filter = run->nodes->options.is_static ||
			    (is_static && !run->nodes->options.is_lax);
	int ends[2], error = 0;

	run->listener = run->execs = -1;
	if (socketpair(AF_UNIX, SOCK_SEQPACKET | SOCK_CLOEXEC, 0, ends))
		fail(STATUS_FAILED, "cannot start a program: %s",
		     strerror(errno));
	run->child = fork();
	if (!run->child)
		become_program(run, ends[1], needs_filter);
	close(ends[1]);
	if (run->child < 0)
		error = errno;
	else
		take_filter(run, ends[0], is_static);
	if (run->child > 0)
		error = serve_start(run, ends[0]);
	close(ends[0]);
	check_start(run, error);
}

void serve_execs(struct run *run)
{
	struct seccomp_notif ask;

	if (run->execs < 0)
		return;
	execs_wait_no_more();
	while (execs_take(&ask))
		exec_follow(run->listener, &ask);
}
