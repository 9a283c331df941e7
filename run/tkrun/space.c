/* SPDX-License-Identifier: MIT OR Apache-2.0 */
/* space.c - the numbers and addresses of the processes of a run with --seed. */
#define _GNU_SOURCE
#include "space.h"

#include <errno.h>
#include <fcntl.h>
#include <sched.h>
#include <signal.h>
#include <stdio.h>
#include <stdlib.h>
#include <string.h>
#include <sys/mount.h>
#include <sys/personality.h>
#include <sys/prctl.h>
#include <sys/wait.h>
#include <unistd.h>

static void warn(const char *what)
{
	fprintf(stderr, "tkrun: --seed: the %s of processes are the host's: %s\n", what,
		strerror(errno));
}

static int status_of(int status)
{
	return WIFEXITED(status) ? WEXITSTATUS(status) : 128 + WTERMSIG(status);
}

/* Passes signals on until the process ends, and ends with its status. A terminal has sent a signal to
 * the process, too. */
__attribute__((noreturn)) static void end_as(pid_t process, const sigset_t *signals)
{
	siginfo_t info;
	int status;

	for (;;) {
		if (sigwaitinfo(signals, &info) < 0)
			continue;
		if (info.si_signo != SIGCHLD && info.si_code != SI_KERNEL)
			kill(process, info.si_signo);
		if (waitpid(process, &status, WNOHANG) == process)
			exit(status_of(status));
	}
}

/* Mounts the files of the new namespace's processes. Mounts of the host still come. */
static int mount_proc(void)
{
	if (mount(NULL, "/", NULL, MS_REC | MS_SLAVE, NULL) ||
	    mount("proc", "/proc", "proc", MS_NOSUID | MS_NODEV | MS_NOEXEC, NULL))
		return errno;
	return 0;
}

/* Returns the errno that a new process has sent. */
static int receive(int file)
{
	int error = EIO;

	if (read(file, &error, sizeof(error)) != sizeof(error))
		return EIO;
	return error;
}

/* Returns true in the first process of the namespace, and false if it can't go on. */
static bool split(const sigset_t *signals, const sigset_t *before)
{
	int ends[2], error;
	pid_t process;

	if (pipe2(ends, O_CLOEXEC))
		return false;
	process = fork();
	if (!process) {
		sigprocmask(SIG_SETMASK, before, NULL);
		prctl(PR_SET_PDEATHSIG, SIGTERM, 0, 0, 0);
		error = mount_proc();
		if (write(ends[1], &error, sizeof(error)) != sizeof(error) || error)
			_exit(1);
		close(ends[0]);
		close(ends[1]);
		return true;
	}
	error = errno;
	close(ends[1]);
	if (process > 0)
		error = receive(ends[0]);
	close(ends[0]);
	if (!error)
		end_as(process, signals);
	if (process > 0)
		waitpid(process, NULL, 0);
	errno = error;
	return false;
}

bool space_enter(void)
{
	static const int SIGNALS[] = { SIGTERM, SIGHUP, SIGINT, SIGQUIT, SIGCHLD };
	int own = open("/proc/self/ns/pid", O_RDONLY | O_CLOEXEC), error;
	sigset_t signals, before;
	bool is_inside = false;

	sigemptyset(&signals);
	for (size_t i = 0; i < sizeof(SIGNALS) / sizeof(*SIGNALS); i++)
		sigaddset(&signals, SIGNALS[i]);
	sigprocmask(SIG_BLOCK, &signals, &before);
	if (own >= 0 && !unshare(CLONE_NEWPID | CLONE_NEWNS)) {
		is_inside = split(&signals, &before);
		error = errno;
		if (!is_inside)
			setns(own, CLONE_NEWPID);
		errno = error;
	}
	if (!is_inside)
		warn("numbers");
	sigprocmask(SIG_SETMASK, &before, NULL);
	if (own >= 0)
		close(own);
	return is_inside;
}

void space_fix_addresses(void)
{
	int now = personality(0xffffffff);

	if (now < 0 || personality((unsigned long)now | ADDR_NO_RANDOMIZE) < 0)
		warn("addresses");
}
