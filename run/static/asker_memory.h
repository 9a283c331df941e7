/* SPDX-License-Identifier: MIT OR Apache-2.0 */
/* asker_memory.h - the memory of a thread whose call waits for an answer. */
#ifndef ASKER_MEMORY_H
#define ASKER_MEMORY_H

#include <linux/seccomp.h>
#include <stddef.h>
#include <stdint.h>

/* Copy to and from the thread's memory, at most a page, if the call still waits.
 * Return 0 or EFAULT. */
int memory_put(const struct seccomp_notif *ask, int listener, uint64_t address,
	       const void *value, size_t size);
int memory_fetch(const struct seccomp_notif *ask, int listener,
		 uint64_t address, void *value, size_t size);

#endif
