/* SPDX-License-Identifier: MIT OR Apache-2.0 */
/* turn_naps.h - what turn_eager.c and turn_sent.c have in common. */
#ifndef TURN_NAPS_H
#define TURN_NAPS_H

#include <errno.h>
#include <stdio.h>
#include <stdlib.h>
#include <string.h>
#include <time.h>

static void check(int holds, const char *what)
{
	if (!holds) {
		printf("wrong: %s, %s\n", what, strerror(errno));
		exit(1);
	}
}

/* Lets all others go on until they wait. */
static void nap(void)
{
	static const struct timespec SPAN = { 0, 1000000 };

	nanosleep(&SPAN, NULL);
}

#endif
