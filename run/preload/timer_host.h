/* SPDX-License-Identifier: MIT OR Apache-2.0 */
/* timer_host.h - the host's timer of each timer. */
#ifndef TIMER_HOST_H
#define TIMER_HOST_H

#include "timers.h"

#include <sys/time.h>

/* Return a span in ns, and in us, rounded up. No timer is set for more than 292 years. */
uint64_t timer_nanos(const struct timespec *span);
struct timeval timer_micros(const struct timespec *span);

/* Sets the host's timer. A span of 0 disarms it. */
int timer_set_host(const struct timer *timer, uint64_t span, uint64_t period);

/* Returns whether the host's timer, which was armed, isn't any more. */
bool timer_has_expired(const struct timer *timer);

/* Returns whether a file has expiries that nobody has read. The kernel forgets
 * them when the timer is set (timerfd_setup in fs/timerfd.c). */
bool timer_is_unread(const struct timer *timer);

/* Lets a timer expire `count` times now, and waits until it has: the counter might move
 * on before its signal comes. It waits for at most a second, since the caller has the
 * lock of the timers. A kernel without TFD_IOC_SET_TICKS counts one expiry of a file. */
void timer_expire(struct timer *timer, uint64_t count);

#endif
