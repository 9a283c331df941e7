/* SPDX-License-Identifier: MIT OR Apache-2.0 */
/* answers.c - answers the system calls of programs without the library. */
#define _GNU_SOURCE
#include "asker.h"
#include "asker_memory.h"
#include "random.h"
#include "static.h"
#include "clocks/log.h"
#include "processes/coverage.h"

#include <errno.h>
#include <sys/ioctl.h>
#include <sys/syscall.h>
#include <sys/time.h>

static int listener;

int answer_put(const struct seccomp_notif *ask, uint64_t address,
	       const void *value, size_t size)
{
	return memory_put(ask, listener, address, value, size);
}

static int fetch(const struct seccomp_notif *ask, uint64_t address, void *value,
		 size_t size)
{
	return memory_fetch(ask, listener, address, value, size);
}

/* Each of these returns 0 or an errno, or one of these. */
enum { CALL_HOST = -1, CALL_LATER = -2 };

static int read_clock(struct machine *m, const struct seccomp_notif *ask)
{
	int number = machine_clock((clockid_t)ask->data.args[0]);
	struct timespec time;
	struct tkc_time now;

	if (number < 0)
		return CALL_HOST;
	if (machine_read(m, (uint32_t)number, &now, BY_CLOCK_GETTIME))
		return EOVERFLOW;
	time = (struct timespec){ now.sec, now.nsec };
	return answer_put(ask, ask->data.args[1], &time, sizeof(time));
}

static int read_micros(struct machine *m, const struct seccomp_notif *ask)
{
	struct timezone zone;
	struct timeval time;
	struct tkc_time now;
	int error = 0;

	if (machine_read(m, TKC_CLOCK_REALTIME, &now, BY_GETTIMEOFDAY))
		return EOVERFLOW;
	time = (struct timeval){ now.sec, now.nsec / 1000 };
	machine_zone(m, &zone);
	if (ask->data.args[0])
		error = answer_put(ask, ask->data.args[0], &time, sizeof(time));
	if (!error && ask->data.args[1])
		error = answer_put(ask, ask->data.args[1], &zone, sizeof(zone));
	return error;
}

static int read_second(struct machine *m, const struct seccomp_notif *ask,
		       int64_t *value)
{
	struct tkc_time now;

	if (machine_read(m, TKC_CLOCK_REALTIME_COARSE, &now, BY_TIME))
		return EOVERFLOW;
	*value = now.sec;
	if (!ask->data.args[0])
		return 0;
	return answer_put(ask, ask->data.args[0], &now.sec, sizeof(now.sec));
}

/* A call that a thread has made, for --log. */
static struct logged_call asked_call(struct machine *m, const struct seccomp_notif *ask,
				     const char *name, int result)
{
	struct log *log = &m->control->log;
	int process = *log->path ? asker_process(ask) : 0;

	return (struct logged_call){ log, process, name, result };
}

static int set_clock(struct machine *m, const struct seccomp_notif *ask)
{
	int clock = (int)ask->data.args[0], error;
	struct timespec time;

	if (clock != CLOCK_REALTIME) {
		log_clock(asked_call(m, ask, "clock_settime", -EINVAL), clock);
		return EINVAL;
	}
	if (fetch(ask, ask->data.args[1], &time, sizeof(time)))
		return EFAULT;
	error = machine_set_time(m, time.tv_sec, time.tv_nsec);
	log_time(asked_call(m, ask, "clock_settime", -error), time.tv_sec,
		 time.tv_nsec);
	return error;
}

static int set_micros(struct machine *m, const struct seccomp_notif *ask)
{
	uint64_t times = ask->data.args[0], zones = ask->data.args[1];
	struct timezone zone;
	struct timeval time;
	int error;

	if ((times && fetch(ask, times, &time, sizeof(time))) ||
	    (zones && fetch(ask, zones, &zone, sizeof(zone))))
		return EFAULT;
	error = machine_set_micros(m, times ? &time : NULL,
				   zones ? &zone : NULL);
	if (times)
		log_micros(asked_call(m, ask, "settimeofday", -error), &time);
	return error;
}

/* Sleeps until a time, or for a span of MONOTONIC or BOOTTIME, which a step
 * doesn't change. The addresses are that of the time or span, and that of the
 * rest of a span. */
static int sleep_until(struct machine *m, const struct seccomp_notif *ask,
		       int clock, bool is_absolute, const uint64_t *addresses)
{
	struct sleep sleep = { .ask = *ask, .machine = m };
	struct timespec time;

	if (clock < 0)
		return CALL_HOST;
	if (fetch(ask, addresses[0], &time, sizeof(time)))
		return EFAULT;
	if (time.tv_sec < 0 || is_bad(&time))
		return EINVAL;
	if (!is_absolute && clock != CLOCK_BOOTTIME)
		clock = CLOCK_MONOTONIC;
	if (!is_absolute && !machine_after(m, clock, &time, &time))
		return EINVAL;
	sleep.clock = clock;
	sleep.end = time;
	sleep.rest = is_absolute ? 0 : addresses[1];
	return sleepers_add(&sleep) ? CALL_LATER : ENOMEM;
}

static int sleep_on(struct machine *m, const struct seccomp_notif *ask)
{
	int clock = (int)ask->data.args[0], number = machine_clock(clock);

	if (number == CLOCK_REALTIME_COARSE ||
	    number == CLOCK_MONOTONIC_COARSE || number == CLOCK_MONOTONIC_RAW)
		return EOPNOTSUPP;
	return sleep_until(m, ask, number, ask->data.args[1] & TIMER_ABSTIME,
			   (const uint64_t *)ask->data.args + 2);
}

/* Before Linux 5.19, a call that a signal interrupts now is made again. */
static int steer(struct machine *m, const struct seccomp_notif *ask,
		 const char *name, uint64_t address, int64_t *value)
{
	struct timex timex, in;
	int state;

	if (fetch(ask, address, &timex, sizeof(timex)))
		return EFAULT;
	in = timex;
	state = machine_adjtimex(m, &timex);
	log_request(asked_call(m, ask, name, state), &in);
	if (state < 0)
		return -state;
	*value = state;
	return answer_put(ask, address, &timex, sizeof(timex));
}

static int steer_clock(struct machine *m, const struct seccomp_notif *ask,
		       int64_t *value)
{
	int error = machine_adjust_error((clockid_t)ask->data.args[0]);

	return error ? error
		     : steer(m, ask, "clock_adjtime", ask->data.args[1], value);
}

/* Returns whether a call sets or steers the clocks. */
static bool is_command(long call)
{
	return call == SYS_clock_settime || call == SYS_settimeofday ||
	       call == SYS_adjtimex || call == SYS_clock_adjtime;
}

static int make_call(size_t node, const struct seccomp_notif *ask,
		     int64_t *value)
{
	struct machine *m = node_machine(node);

	machine_turn_to(m);
	asker_reads(m, ask);
	if (is_command(ask->data.nr) && !files_may_command((int)ask->pid))
		return EPERM;
	switch (ask->data.nr) {
	case SYS_clock_gettime:
		return read_clock(m, ask);
	case SYS_gettimeofday:
		return read_micros(m, ask);
	case SYS_time:
		return read_second(m, ask, value);
	case SYS_clock_settime:
		return set_clock(m, ask);
	case SYS_settimeofday:
		return set_micros(m, ask);
	case SYS_nanosleep:
		return sleep_until(m, ask, CLOCK_MONOTONIC, false,
				   (const uint64_t *)ask->data.args);
	case SYS_clock_nanosleep:
		return sleep_on(m, ask);
	case SYS_restart_syscall:
		return sleepers_resume(ask) ? CALL_LATER : CALL_HOST;
	case SYS_adjtimex:
		return steer(m, ask, "adjtimex", ask->data.args[0], value);
	case SYS_clock_adjtime:
		return steer_clock(m, ask, value);
	case SYS_getrandom:
		return random_answer(ask, node, value);
	case CALL_FILE:
		return files_give(listener, ask, node, value);
	case CALL_ATTACHED:
		coverage_remove((pid_t)ask->pid);
		return 0;
	default:
		return CALL_HOST;
	}
}

/* Answers a call that doesn't execute a program. A sleep is answered later. If a thread was killed,
 * another one may have its number, and belong to another node. */
static void answer(const struct seccomp_notif *ask)
{
	struct seccomp_notif_resp reply = { .id = ask->id };
	size_t node = node_of((int)ask->pid);
	int64_t value = 0;
	int error;

	if (node_count() > 1 && !filter_has_call(listener, ask->id))
		return;
	error = make_call(node, ask, &value);
	if (error == CALL_LATER)
		return;
	if (error == CALL_HOST) {
		filter_continue(listener, ask->id);
		return;
	}
	reply.error = -error;
	reply.val = error ? 0 : value;
	ioctl(listener, SECCOMP_IOCTL_NOTIF_SEND, &reply);
}

static void *answer_all(void *unused)
{
	struct seccomp_notif ask;

	while (filter_next(listener, &ask) || !filter_is_over(listener)) {
		if (is_exec(&ask))
			execs_add(listener, &ask);
		else if (ask.id)
			answer(&ask);
	}
	return unused;
}

bool answers_start(int file)
{
	pthread_t thread;

	listener = file;
	return !pthread_create(&thread, NULL, answer_all, NULL);
}
