/* SPDX-License-Identifier: MIT OR Apache-2.0 */
/*
 * Sets timers whose fields all differ, and prints what each call returns and stores. It runs
 * on the host's clocks too. A line is a name, the errors or counts that must be the same
 * there, and after a "~" times in ns that are about the same.
 */
#define _GNU_SOURCE
#include "spans.h"

#include <sys/time.h>
#include <sys/timerfd.h>

static const struct itimerspec FIRST = { { 50, 987654321 }, { 100, 123456789 } },
			       SECOND = { { 0, 0 }, { 200, 500000001 } };

static void nap(void)
{
	struct timespec span = { 0, 250000000 };

	nanosleep(&span, NULL);
}

static void print_spec(const char *name, int result,
		       const struct itimerspec *spec)
{
	printf("%s %s ~ %lld %lld\n", name,
	       result ? strerrorname_np(errno) : "0",
	       (long long)nanos(spec->it_value),
	       (long long)nanos(spec->it_interval));
}

/* The calls of a timer of either kind. */
struct kind {
	const char *name;
	int (*set)(intptr_t, int, const struct itimerspec *,
		   struct itimerspec *);
	int (*get)(intptr_t, struct itimerspec *);
	int absolute;
};

static int set_file(intptr_t timer, int flags, const struct itimerspec *in,
		    struct itimerspec *out)
{
	return timerfd_settime((int)timer, flags, in, out);
}

static int get_file(intptr_t timer, struct itimerspec *out)
{
	return timerfd_gettime((int)timer, out);
}

static int set_posix(intptr_t timer, int flags, const struct itimerspec *in,
		     struct itimerspec *out)
{
	return timer_settime((timer_t)timer, flags, in, out);
}

static int get_posix(intptr_t timer, struct itimerspec *out)
{
	return timer_gettime((timer_t)timer, out);
}

static void print_timer(const struct kind *kind, clockid_t clock,
			intptr_t timer)
{
	struct itimerspec old = { 0 }, wrong = FIRST, at = SECOND;

	printf("%s of clock %d\n", kind->name, clock);
	print_spec("get", kind->get(timer, &old), &old);
	print_spec("set", kind->set(timer, 0, &FIRST, &old), &old);
	nap();
	print_spec("get", kind->get(timer, &old), &old);
	print_spec("set", kind->set(timer, 0, &SECOND, &old), &old);
	nap();
	print_spec("get", kind->get(timer, &old), &old);
	at.it_value = after(clock, 300 * INT64_C(1000000000) + 125000000);
	print_spec("absolute",
		   kind->set(timer, kind->absolute, &at, &old), &old);
	nap();
	print_spec("get", kind->get(timer, &old), &old);
	for (int field = 0; field < 4; field++) {
		wrong = FIRST;
		if (field < 2)
			(field ? &wrong.it_value : &wrong.it_interval)->tv_nsec =
				BILLION;
		else
			(field == 2 ? &wrong.it_value : &wrong.it_interval)
				->tv_sec = -1;
		old = (struct itimerspec){ 0 };
		print_spec("wrong", kind->set(timer, 0, &wrong, &old), &old);
	}
	wrong = (struct itimerspec){ 0 };
	print_spec("stop", kind->set(timer, 0, &wrong, &old), &old);
	print_spec("get", kind->get(timer, &old), &old);
}

static void print_file_count(void)
{
	struct itimerspec spec = { { 0, 250000000 }, { 0, 250000000 } }, old;
	int file = timerfd_create(CLOCK_MONOTONIC, TFD_NONBLOCK);
	struct timespec span = { 1, 125000000 };
	uint64_t count = 0;

	timerfd_settime(file, 0, &spec, NULL);
	nanosleep(&span, NULL);
	printf("count %d", read(file, &count, sizeof(count)) == sizeof(count));
	printf(" ~ %lld\n", (long long)count * spec.it_value.tv_nsec);
	printf("again %s\n",
	       read(file, &count, sizeof(count)) < 0 ? strerrorname_np(errno)
						     : "read");
	print_spec("rest", timerfd_gettime(file, &old), &old);
}

static void print_micros(const char *name, int result,
			 const struct itimerval *spec)
{
	printf("%s %s ~ %lld %lld\n", name,
	       result ? strerrorname_np(errno) : "0",
	       (spec->it_value.tv_sec * 1000000LL + spec->it_value.tv_usec) *
		       1000,
	       (spec->it_interval.tv_sec * 1000000LL +
		spec->it_interval.tv_usec) *
		       1000);
}

static void print_alarms(void)
{
	struct itimerval in = { { 50, 987654 }, { 100, 123456 } }, old = { 0 };

	print_micros("setitimer", setitimer(ITIMER_REAL, &in, &old), &old);
	nap();
	print_micros("getitimer", getitimer(ITIMER_REAL, &old), &old);
	in = (struct itimerval){ { 0, 0 }, { 200, 5 } };
	print_micros("setitimer", setitimer(ITIMER_REAL, &in, &old), &old);
	in.it_value.tv_usec = 1000000;
	print_micros("wrong", setitimer(ITIMER_REAL, &in, &old), &old);
	in = (struct itimerval){ { -1, 0 }, { 1, 0 } };
	print_micros("wrong", setitimer(ITIMER_REAL, &in, &old), &old);
	printf("alarm ~ %lld\n", alarm(400) * 1000000000LL);
	nap();
	printf("alarm ~ %lld\n", alarm(0) * 1000000000LL);
	printf("ualarm ~ %lld\n", ualarm(999999, 500000) * 1000LL);
	printf("ualarm ~ %lld\n", ualarm(0, 0) * 1000LL);
	printf("alarm %u\n", alarm(0));
}

int main(void)
{
	static const struct kind FILES = { "timerfd", set_file, get_file,
					   TFD_TIMER_ABSTIME },
				 POSIX = { "timer", set_posix, get_posix,
					   TIMER_ABSTIME };
	static const clockid_t CLOCKS[] = { CLOCK_REALTIME, CLOCK_MONOTONIC,
					    CLOCK_BOOTTIME };
	timer_t timer;

	for (int i = 0; i < 3; i++) {
		print_timer(&FILES, CLOCKS[i], timerfd_create(CLOCKS[i], 0));
		if (timer_create(CLOCKS[i], NULL, &timer))
			perror("fields");
		print_timer(&POSIX, CLOCKS[i], (intptr_t)timer);
		timer_delete(timer);
	}
	print_file_count();
	print_alarms();
	return 0;
}
