/* SPDX-License-Identifier: MIT OR Apache-2.0 */
/* steering.h - the calls of calls.c that steer a clock. */
#ifndef STEERING_H
#define STEERING_H

#include "words.h"

#include <dlfcn.h>
#include <sys/syscall.h>
#include <sys/timex.h>
#include <unistd.h>

/* Returns a request with the fields of the words, and 77 in the others. */
static struct timex asked(int first)
{
	struct timex tx = {
		.offset = LEFT, .freq = LEFT, .maxerror = LEFT, .esterror = LEFT, .status = LEFT,
		.constant = LEFT, .precision = LEFT, .tolerance = LEFT, .time = { LEFT, LEFT },
		.tick = LEFT, .ppsfreq = LEFT, .jitter = LEFT, .shift = LEFT, .stabil = LEFT,
		.jitcnt = LEFT, .calcnt = LEFT, .errcnt = LEFT, .stbcnt = LEFT, .tai = LEFT,
	};
	const struct {
		const char *name;
		long *number;
	} fields[] = {
		{ "offset=", &tx.offset }, { "freq=", &tx.freq }, { "maxerror=", &tx.maxerror },
		{ "esterror=", &tx.esterror }, { "constant=", &tx.constant },
		{ "tick=", &tx.tick }, { "sec=", &tx.time.tv_sec }, { "sub=", &tx.time.tv_usec },
	};

	for (int i = first; i < words_count; i++) {
		const char *value = strchr(words[i], '=') + 1;

		if (!strncmp(words[i], "modes=", 6))
			tx.modes = (unsigned int)strtoul(value, NULL, 0);
		if (!strncmp(words[i], "status=", 7))
			tx.status = (int)strtol(value, NULL, 0);
		for (size_t j = 0; j < sizeof(fields) / sizeof(*fields); j++)
			if (!strncmp(words[i], fields[j].name, strlen(fields[j].name)))
				*fields[j].number = strtol(value, NULL, 0);
	}
	return tx;
}

static void show_reply(long result, const struct timex *tx)
{
	show_result(result);
	printf(" %u %ld.%ld %ld %ld %ld %ld %d %ld %ld %d, %ld %ld, %ld %ld %d %ld %ld %ld %ld %ld\n",
	       tx->modes, tx->time.tv_sec, tx->time.tv_usec, tx->offset, tx->freq, tx->maxerror,
	       tx->esterror, tx->status, tx->constant, tx->tick, tx->tai, tx->precision,
	       tx->tolerance, tx->ppsfreq, tx->jitter, tx->shift, tx->stabil, tx->jitcnt,
	       tx->calcnt, tx->errcnt, tx->stbcnt);
}

static void adjust(void)
{
	struct timex tx = asked(1);
	int result = adjtimex(&tx);

	show_reply(result, &tx);
}

static void adjust_by_ntp(void)
{
	struct timex tx = asked(1);
	int result = ntp_adjtime(&tx);

	show_reply(result, &tx);
}

static void adjust_clock(void)
{
	struct timex tx = asked(2);
	int result = clock_adjtime((clockid_t)argument(1), &tx);

	show_reply(result, &tx);
}

static void sys_adjust(void)
{
	struct timex tx = asked(1);
	long result = syscall(SYS_adjtimex, &tx);

	show_reply(result, &tx);
}

static void sys_adjust_clock(void)
{
	struct timex tx = asked(2);
	long result = syscall(SYS_clock_adjtime, argument(1), &tx);

	show_reply(result, &tx);
}

static void adjust_slowly(void)
{
	struct timeval span = { argument(1), argument(2) }, rest = { LEFT, LEFT };
	int result = adjtime(words_count > 1 ? &span : NULL, &rest);

	show_micros(result, rest);
	putchar('\n');
}

static void show_quality(long result, const struct ntptimeval *all)
{
	show_micros(result, all->time);
	printf(" %ld %ld %ld\n", all->maxerror, all->esterror, all->tai);
}

static const struct ntptimeval LEFT_QUALITY = {
	.time = { LEFT, LEFT }, .maxerror = LEFT, .esterror = LEFT, .tai = LEFT,
};

/* ntp_gettime is another name of ntp_gettimex for the compiler. */
static void get_quality(void)
{
	struct ntptimeval all = LEFT_QUALITY;
	int result = ntp_gettime(&all);

	show_quality(result, &all);
}

static void get_old_quality(void)
{
	int (*old)(struct ntptimeval *) =
		(int (*)(struct ntptimeval *))dlsym(RTLD_DEFAULT, "ntp_gettime");
	struct ntptimeval all = LEFT_QUALITY;
	int result = (old ? old : ntp_gettime)(&all);

	show_quality(result, &all);
}

#endif
