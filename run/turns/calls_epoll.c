/* SPDX-License-Identifier: MIT OR Apache-2.0 */
/*
 * calls_epoll.c - the calls that wait for files of an epoll. As in calls_poll.c, a thread looks
 * again at its turn, and a connection that is full by our count isn't writable. The kernel says
 * which files an epoll has, in /proc.
 */
#define _GNU_SOURCE
#include "files.h"
#include "full.h"
#include "clocks/host.h"

#include <fcntl.h>
#include <stdio.h>
#include <string.h>
#include <sys/epoll.h>
#include <sys/syscall.h>

enum { EVENTS_MOST = 256, TEXT_BYTES = 4096 };

/* Puts the event of a file that isn't reported again in front of the others, or adds it to that of
 * its file. Returns their number. */
static int add_event(struct epoll_event *events, int count, const struct epoll_event *event, int at)
{
	for (int i = at; i < count; i++) {
		if (events[i].data.u64 == event->data.u64) {
			events[i].events |= event->events;
			return count;
		}
	}
	memmove(&events[at + 1], &events[at], (size_t)(count - at) * sizeof(*events));
	events[at] = *event;
	return count + 1;
}

/* The kernel reports an event again if it isn't edge-triggered. */
static int epoll_again(int file, struct epoll_event *events, int most, int found,
		       const void *caller)
{
	struct epoll_event before[EVENTS_MOST];
	int count, at = 0, all;
	long again;

	if (!turn_need(caller) || found <= 0 || 2 * found > most || found > EVENTS_MOST)
		return found;
	memcpy(before, events, (size_t)found * sizeof(*events));
	again = host_call(SYS_epoll_wait, file, (long)events, most - found, 0, 0, 0);
	count = again > 0 ? (int)again : 0;
	for (int i = 0; i < found; i++) {
		all = add_event(events, count, &before[i], at);
		at += all > count;
		count = all;
	}
	return count;
}

/* A file of an epoll. */
struct member {
	int file;
	struct epoll_event event;
};

/* Calls a function with the file of a line: tfd: FILE events: EVENTS data: DATA, the last two as
 * hexadecimal numbers. */
static void take_line(const char *line, void (*call)(const struct member *, void *), void *what)
{
	struct member member;
	unsigned long data;

	if (sscanf(line, "tfd: %d events: %x data: %lx", &member.file, &member.event.events,
		   &data) != 3)
		return;
	member.event.data.u64 = data;
	call(&member, what);
}

/* Calls a function with each file of an epoll, in the order of /proc. */
static void each_member(int epoll, void (*call)(const struct member *, void *), void *what)
{
	char text[TEXT_BYTES], path[64], *end;
	long file, size, length = 0;

	snprintf(path, sizeof(path), "/proc/self/fdinfo/%d", epoll);
	file = host_call(SYS_open, (long)path, O_RDONLY | O_CLOEXEC, 0, 0, 0, 0);
	if (file < 0)
		return;
	while ((size = host_call(SYS_read, file, (long)(text + length),
				 (long)sizeof(text) - 1 - length, 0, 0, 0)) > 0) {
		length += size;
		text[length] = 0;
		while ((end = strchr(text, '\n'))) {
			*end++ = 0;
			take_line(text, call, what);
			length -= end - text;
			memmove(text, end, (size_t)length + 1);
		}
	}
	host_call(SYS_close, file, 0, 0, 0, 0, 0);
}

/* The files of an epoll with EPOLLONESHOT that wait for space. When the kernel has reported one, it
 * no longer says what the file waits for. */
struct once {
	struct member members[EVENTS_MOST];
	int count;
};

/* Returns the place of a file, or the number of all. */
static int place_of(const struct once *once, int file)
{
	int place = 0;

	while (place < once->count && once->members[place].file != file)
		place++;
	return place;
}

/* An event of a wait, whether its file is full, and the files that were reported once. */
struct wanted {
	uint64_t data;
	bool is_full;
	int epoll;
	const struct once *once;
};

static void find_full(const struct member *member, void *what)
{
	struct wanted *wanted = what;
	bool is_once = place_of(wanted->once, member->file) < wanted->once->count;

	if (member->event.data.u64 != wanted->data ||
	    !(member->event.events & EPOLLOUT || is_once) || !file_is_full(member->file))
		return;
	wanted->is_full = true;
	full_note(member->file, true);
}

/* Lets the kernel report a file again that it has reported, though it is full. */
static void report_again(const struct member *member, void *what)
{
	const struct wanted *wanted = what;
	int place = place_of(wanted->once, member->file);

	if (member->event.data.u64 == wanted->data && place < wanted->once->count)
		host_call(SYS_epoll_ctl, wanted->epoll, EPOLL_CTL_MOD, member->file,
			  (long)&wanted->once->members[place].event, 0, 0);
}

/* Takes the files from the events that are full, and not ready for something else. Returns the
 * number of the others. */
static int leave_out_full(int epoll, struct epoll_event *events, int count,
			  const struct once *once)
{
	int kept = 0;

	for (int i = 0; i < count; i++) {
		struct wanted wanted = { events[i].data.u64, false, epoll, once };

		if (events[i].events & EPOLLOUT && !(events[i].events & (EPOLLERR | EPOLLHUP)))
			each_member(epoll, find_full, &wanted);
		if (wanted.is_full)
			events[i].events &= ~(uint32_t)(EPOLLOUT | EPOLLWRNORM | EPOLLWRBAND);
		if (events[i].events)
			events[kept++] = events[i];
		else
			each_member(epoll, report_again, &wanted);
	}
	return kept;
}

/* Notes whether an epoll waits for a full file, and lets it report again one that isn't any more:
 * the kernel reports no change. */
struct watch {
	int epoll;
	bool has_full;
	struct once *once;
};

static void watch(const struct member *member, void *what)
{
	struct watch *watch = what;
	struct epoll_event event = member->event;
	bool is_full = event.events & EPOLLOUT && file_is_full(member->file);

	if (!(event.events & EPOLLOUT))
		return;
	watch->has_full |= is_full;
	full_note(member->file, is_full);
	if (event.events & EPOLLONESHOT && watch->once->count < EVENTS_MOST)
		watch->once->members[watch->once->count++] = *member;
	if (!is_full && full_is_over(watch->epoll, member->file))
		host_call(SYS_epoll_ctl, watch->epoll, EPOLL_CTL_MOD, member->file, (long)&event,
			  0, 0);
}

/* Returns whether an epoll waits for a full file, and stores the files that are reported once. */
static bool has_full(int epoll, struct once *once)
{
	struct watch watching = { epoll, false, once };

	once->count = 0;
	if (full_was_noted())
		each_member(epoll, watch, &watching);
	return watching.has_full;
}

struct waited {
	int epoll, most, found;
	struct epoll_event *events;
};

static bool look_at_epoll(void *what)
{
	struct waited *waited = what;
	struct once once;
	long found;

	if (waited->found > 0) /* the kernel reports an edge once */
		return true;
	has_full(waited->epoll, &once);
	found = host_call(SYS_epoll_wait, waited->epoll, (long)waited->events, waited->most, 0, 0,
			  0);
	waited->found = found > 0
				? leave_out_full(waited->epoll, waited->events, (int)found, &once)
				: (int)found;
	return waited->found;
}

/* Waits for an epoll that has full files. */
static int wait_full(int epoll, struct epoll_event *events, int most, const struct timespec *span,
		     const sigset_t *mask, const void *caller)
{
	struct waited waited = { epoll, most, 0, events };
	int result = full_wait(look_at_epoll, &waited, span, mask, caller);

	return full_result(result, waited.found);
}

#define WAIT(name, parameters, arguments, span, mask)                                   \
	EXPORT int name parameters                                                       \
	{                                                                                \
		bool is_own = turn_is_own(CALLER);                                       \
		struct once once;                                                        \
		int found, left;                                                         \
                                                                                         \
		turn_have(CALLER);                                                       \
		if (is_own && has_full(file, &once))                                     \
			return wait_full(file, events, most, span, mask, CALLER);        \
		found = epoll_again(file, events, most, REAL(name) arguments, CALLER);   \
		left = is_own && found > 0 ? leave_out_full(file, events, found, &once) : found; \
		if (left || !found)                                                      \
			return left;                                                     \
		return wait_full(file, events, most, span, mask, CALLER);                \
	}

#define MILLIS (millis < 0 ? NULL : &(struct timespec){ millis / 1000, millis % 1000 * 1000000 })

WAIT(epoll_wait, (int file, struct epoll_event *events, int most, int millis),
     (file, events, most, millis), MILLIS, NULL)
WAIT(epoll_pwait,
     (int file, struct epoll_event *events, int most, int millis, const sigset_t *mask),
     (file, events, most, millis, mask), MILLIS, mask)
WAIT(epoll_pwait2,
     (int file, struct epoll_event *events, int most, const struct timespec *span,
      const sigset_t *mask),
     (file, events, most, span, mask), span, mask)
