/* SPDX-License-Identifier: MIT OR Apache-2.0 */
/* random.c - the random bytes of processes, by a seed. They are no secret. */
#define _GNU_SOURCE
#include "random.h"

#include "asker.h"
#include "stack.h"
#include "static.h"
#include "tkrun/splitmix.h"

#include <elf.h>
#include <errno.h>
#include <linux/random.h>
#include <pthread.h>
#include <stdlib.h>
#include <string.h>
#include <sys/ptrace.h>

#ifndef GRND_INSECURE
#define GRND_INSECURE 4 /* since Linux 5.6 */
#endif

enum { PIECE_BYTES = 4096, ANSWER_BYTES = 65536 };

/* The bytes of a process: those of `first` after so many draws of eight. */
struct stream {
	pid_t process;
	uint64_t first, draws;
};

static struct {
	bool is_seeded, has_numbers;
	uint64_t seed;
	pthread_mutex_t lock;
	struct stream *streams; /* by their processes */
	size_t count, room;
	uint64_t made[256]; /* streams of each node */
} all = { .lock = PTHREAD_MUTEX_INITIALIZER };

void random_start(uint64_t seed, bool has_numbers)
{
	all.is_seeded = true;
	all.has_numbers = has_numbers;
	all.seed = seed;
}

bool random_is_seeded(void)
{
	return all.is_seeded;
}

/* Returns the place of a process in the list, or where it is to be. */
static size_t find_place(pid_t process)
{
	size_t low = 0, high = all.count;

	while (low < high) {
		size_t middle = low + (high - low) / 2;

		if (all.streams[middle].process < process)
			low = middle + 1;
		else
			high = middle;
	}
	return low;
}

static bool make_room(void)
{
	size_t room = all.room ? 2 * all.room : 64;
	struct stream *larger;

	if (all.count < all.room)
		return true;
	larger = reallocarray(all.streams, room, sizeof(*larger));
	if (!larger)
		return false;
	all.streams = larger;
	all.room = room;
	return true;
}

/* Returns the stream of a process, or NULL if memory is missing. */
static struct stream *find_stream(pid_t process, size_t node)
{
	size_t place = find_place(process);
	struct stream *stream;
	uint64_t number;

	if (place < all.count && all.streams[place].process == process)
		return &all.streams[place];
	if (!make_room())
		return NULL;
	stream = &all.streams[place];
	memmove(stream + 1, stream, (all.count++ - place) * sizeof(*stream));
	number = all.has_numbers ? (uint64_t)process : all.made[node]++;
	*stream = (struct stream){
		.process = process,
		.first = splitmix_mix(all.seed + splitmix_mix(number << 8 | node)),
	};
	return stream;
}

/* Returns 0 or ENOMEM. */
static int fill(pid_t process, size_t node, uint8_t *bytes, size_t size)
{
	struct stream *stream;
	uint64_t word;

	pthread_mutex_lock(&all.lock);
	stream = find_stream(process, node);
	for (size_t at = 0; stream && at < size; at += sizeof(word)) {
		word = splitmix_mix(stream->first + ++stream->draws * SPLITMIX_STEP);
		memcpy(bytes + at, &word, size - at < sizeof(word) ? size - at : sizeof(word));
	}
	pthread_mutex_unlock(&all.lock);
	return stream ? 0 : ENOMEM;
}

/* The kernel's getrandom in drivers/char/random.c refuses the same flags. */
int random_answer(const struct seccomp_notif *ask, size_t node, int64_t *value)
{
	uint64_t address = ask->data.args[0], size = ask->data.args[1];
	unsigned int flags = (unsigned int)ask->data.args[2];
	pid_t process = asker_process(ask);
	uint8_t bytes[PIECE_BYTES];
	int error = 0;

	*value = 0;
	if (flags & ~(GRND_NONBLOCK | GRND_RANDOM | GRND_INSECURE) ||
	    (flags & GRND_RANDOM && flags & GRND_INSECURE))
		return EINVAL;
	if (size > ANSWER_BYTES)
		size = ANSWER_BYTES;
	while (!error && (uint64_t)*value < size) {
		size_t left = size - (uint64_t)*value;
		size_t piece = left < sizeof(bytes) ? left : sizeof(bytes);

		error = fill(process, node, bytes, piece);
		if (!error)
			error = answer_put(ask, address + (uint64_t)*value, bytes, piece);
		if (!error)
			*value += (int64_t)piece;
	}
	return *value ? 0 : error;
}

void random_give(pid_t process, uint64_t stack)
{
	uint64_t place = stack_find_auxiliary(process, stack, AT_RANDOM), words[2];

	if (!all.is_seeded || !place ||
	    fill(process, node_of(process), (uint8_t *)words, sizeof(words)))
		return;
	place = stack_peek(process, place + 8);
	for (size_t i = 0; i < 2; i++)
		ptrace(PTRACE_POKEDATA, process, place + 8 * i, words[i]);
}
