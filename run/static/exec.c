/* SPDX-License-Identifier: MIT OR Apache-2.0 */
/*
 * exec.c - replaces the vDSO of each program when it is executed. Its thread is traced from its
 * call of execve until then.
 */
#define _GNU_SOURCE
#include "random.h"
#include "stack.h"
#include "static.h"
#include "image/image.h"
#include "processes/coverage.h"
#include "processes/status.h"
#include "processes/uncovered.h"

#include <errno.h>
#include <fcntl.h>
#include <signal.h>
#include <stdio.h>
#include <sys/ptrace.h>
#include <sys/syscall.h>
#include <sys/user.h>
#include <sys/wait.h>
#include <unistd.h>

enum {
	TEXT_MOST = 4096,
	NAME_MOST = 256,
	CODE_64 = 0x33, /* cs of 64-bit programs */
};

/* Replaces the vDSO by the image, or by none. `place` is that of its auxiliary value. */
static void replace_at(pid_t process, uint64_t place)
{
	uint64_t image = image_give(process, stack_peek(process, place + 8));

	if (image)
		ptrace(PTRACE_POKEDATA, process, place + 8, image);
	else
		ptrace(PTRACE_POKEDATA, process, place, AT_IGNORE);
}

/* Replaces the vDSO of a program that is about to start. Returns NULL, or why it can't. A process
 * that was killed meanwhile reads no clock. */
static const char *replace_vdso(pid_t process)
{
	struct user_regs_struct registers;
	uint64_t place;

	if (ptrace(PTRACE_GETREGS, process, 0, &registers) || proc_is_tkrun(process))
		return NULL;
	if (registers.cs != CODE_64)
		return "it isn't a program for x86-64";
	random_give(process, registers.rsp);
	place = stack_find_auxiliary(process, registers.rsp, AT_SYSINFO_EHDR);
	if (place)
		replace_at(process, place);
	else if (errno == EPERM)
		return "its memory can't be read";
	atomic_fetch_add(&node_machine(node_of(process))->control->attached, 1);
	return NULL;
}

/* The file that a call executes, by its name in a folder. */
struct executed {
	char folder[64];      /* a link of /proc; none if the name needs none */
	char name[TEXT_MOST]; /* none if it can't be read, or is the folder */
};

static void find_executed(const struct seccomp_notif *ask,
			  struct executed *file)
{
	bool is_at = ask->data.nr == SYS_execveat;
	int folder = is_at ? (int)ask->data.args[0] : AT_FDCWD;

	stack_read_text((pid_t)ask->pid, ask->data.args[is_at], file->name,
			sizeof(file->name));
	if (*file->name == '/' || (!*file->name && folder == AT_FDCWD))
		*file->folder = 0;
	else if (folder == AT_FDCWD)
		snprintf(file->folder, sizeof(file->folder), "/proc/%u/cwd",
			 ask->pid);
	else
		snprintf(file->folder, sizeof(file->folder), "/proc/%u/fd/%d",
			 ask->pid, folder);
}

/* Stores the path of an executed file, in a folder that is named so. */
static void join_path(const struct executed *file, const char *folder,
		      char *path, size_t size)
{
	snprintf(path, size, "%s%s%s", folder,
		 *folder && *file->name ? "/" : "", file->name);
}

/* Returns whether a call executes a program that can't load the library. If tkrun may not read the
 * call's memory, it isn't known. */
static bool lacks_library(const struct seccomp_notif *ask,
			  const struct executed *program)
{
	uint64_t environment =
		ask->data.args[ask->data.nr == SYS_execveat ? 3 : 2];
	char path[2 * TEXT_MOST];

	errno = 0;
	stack_peek((pid_t)ask->pid, environment);
	if (errno == EPERM)
		return false;
	join_path(program, program->folder, path, sizeof(path));
	if (*path && (access(path, X_OK) || is_tkrun_file(path)))
		return false; /* the call will fail, or a tkrun makes its own clocks */
	return is_static_file(path) ||
	       !stack_has_preload((pid_t)ask->pid, environment);
}

/* Names a program by its file, or else by the process that executes it. The folder's own name is
 * the same for all processes that execute the program. */
static void note_program(const struct seccomp_notif *ask,
			 const struct executed *program, const char *reason)
{
	char folder[TEXT_MOST], path[2 * TEXT_MOST], name[NAME_MOST];
	ssize_t length = readlink(program->folder, folder, sizeof(folder) - 1);

	folder[length < 0 ? 0 : length] = 0;
	join_path(program, folder, path, sizeof(path));
	snprintf(name, sizeof(name), "%.*s", NAME_MOST - 1, path);
	if (*path)
		uncovered_note(name, (pid_t)ask->pid, reason);
	else
		uncovered_note_process((pid_t)ask->pid, reason);
}


/* Handles a call whose thread can't be traced. A program that loads the library has the clocks by
 * itself, which is checked later. Returns whether the call may be made. */
static bool may_execute(const struct seccomp_notif *ask)
{
	char status[STATUS_BYTES];
	struct executed program;

	/* tkrun still traces a thread whose last call has failed */
	if (!status_read((int)ask->pid, status) ||
	    status_number(status, "TracerPid", 10) == (uint64_t)getpid())
		return true;
	find_executed(ask, &program);
	if (!lacks_library(ask, &program)) {
		coverage_add((pid_t)status_number(status, "Tgid", 10));
		return true;
	}
	note_program(ask, &program, "it can't be traced when it is executed");
	return uncovered_is_allowed();
}

/* A thread that is killed meanwhile has nothing to execute. */
void exec_follow(int listener, const struct seccomp_notif *ask)
{
	long error = ptrace(PTRACE_SEIZE, ask->pid, 0,
			    PTRACE_O_TRACEEXEC | PTRACE_O_TRACESYSGOOD);

	if (error && filter_has_call(listener, ask->id) && !may_execute(ask))
		filter_refuse(listener, ask->id, EPERM);
	else
		filter_continue(listener, ask->id);
}

/* A program that has executed another one may have been on another node: `tkrun node`. */
static void forget_waits(pid_t thread)
{
	for (size_t i = 0; i < node_count(); i++)
		waiters_forget(node_machine(i), thread);
}

/* A thread whose call has failed stays traced until its next stop. */
void exec_stopped(pid_t thread, int status)
{
	int event = status >> 16, signal = WSTOPSIG(status);
	const char *reason = NULL;

	if (event == PTRACE_EVENT_EXEC) {
		forget_waits(thread);
		unlinked_check(thread);
		reason = replace_vdso(thread);
	}
	if (reason)
		uncovered_note_process(thread, reason);
	if (reason && !uncovered_is_allowed())
		kill(thread, SIGKILL);
	ptrace(PTRACE_DETACH, thread, 0, event ? 0 : signal);
}
