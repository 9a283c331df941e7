/* SPDX-License-Identifier: MIT OR Apache-2.0 */
/* parked.c - the entries of the table, and the numbers of this thread and its process. */
#define _GNU_SOURCE
#include "parked.h"
#include "find.h"
#include "clocks/host.h"

#include <linux/futex.h>
#include <pthread.h>
#include <sys/syscall.h>
#include <unistd.h>

static _Thread_local int32_t own_thread;
static int32_t own_process;

static int32_t number_of(long call)
{
	return (int32_t)host_call(call, 0, 0, 0, 0, 0, 0);
}

int32_t turn_thread(void)
{
	if (!own_thread)
		own_thread = number_of(SYS_gettid);
	return own_thread;
}

static int32_t turn_process(void)
{
	if (!own_process)
		own_process = number_of(SYS_getpid);
	return own_process;
}

void turn_number_anew(void)
{
	own_thread = own_process = 0;
}

struct parked *parked_enter(int32_t thread, uint32_t state, uint64_t key)
{
	for (uint32_t i = 0; i < PARKED_MOST; i++) {
		struct parked *entry = &turns_table->parked[i];
		uint32_t count = atomic_load(&turns_table->count);
		uint32_t again;
		int32_t nobody = 0;

		if (!atomic_compare_exchange_strong(&entry->thread, &nobody, -1))
			continue;
		atomic_store(&entry->process, turn_process());
		atomic_store(&entry->key, key);
		again = (atomic_load(&entry->word) | STATE_MASK) + 1;
		atomic_store(&entry->word, again | state);
		while (count <= i &&
		       !atomic_compare_exchange_weak(&turns_table->count, &count, i + 1))
			;
		atomic_store(&entry->thread, thread);
		return entry;
	}
	return NULL;
}

long parked_wait(struct parked *entry, uint32_t word, const struct limit *limit)
{
	int operation = FUTEX_WAIT_BITSET, error = errno;
	long result;

	if (!limit)
		return host_call(SYS_futex, (long)&entry->word, FUTEX_WAIT, word, 0, 0, 0);
	if (limit->time->tv_sec < 0)
		return -ETIMEDOUT;
	if (limit->clock == CLOCK_REALTIME)
		operation |= FUTEX_CLOCK_REALTIME;
	result = REAL(syscall)(SYS_futex, &entry->word, operation, word, limit->time, NULL,
			       FUTEX_BITSET_MATCH_ANY);
	result = result < 0 ? -errno : result;
	errno = error;
	return result;
}

long parked_wait_cancelled(struct parked *entry, uint32_t word, const struct limit *limit)
{
	long result;
	int type;

	pthread_setcanceltype(PTHREAD_CANCEL_ASYNCHRONOUS, &type);
	result = parked_wait(entry, word, limit);
	pthread_setcanceltype(type, NULL);
	return result;
}

void parked_leave(struct parked *entry)
{
	atomic_compare_exchange_strong(&entry->thread, &(int32_t){ turn_thread() }, 0);
}

bool parked_is_of(const struct parked *entry, uint64_t key)
{
	return atomic_load(&entry->thread) > 0 && atomic_load(&entry->key) == key &&
	       (key & 1 || atomic_load(&entry->process) == turn_process());
}

void turn_forget(void)
{
	uint32_t count = turns_table ? atomic_load(&turns_table->count) : 0;

	for (uint32_t i = 0; i < count; i++) {
		struct parked *entry = &turns_table->parked[i];

		if (atomic_load(&entry->thread) > 0 &&
		    atomic_load(&entry->process) == turn_process())
			atomic_store(&entry->thread, 0);
	}
}
