/* SPDX-License-Identifier: MIT OR Apache-2.0 */
/* random.h - with --seed, the random bytes of processes. */
#ifndef RANDOM_H
#define RANDOM_H

#include <linux/seccomp.h>
#include <stdbool.h>
#include <stddef.h>
#include <stdint.h>
#include <sys/types.h>

/* Lets random bytes come from a seed. If the numbers of processes are the same in each run, those of
 * a process depend on its number, and otherwise on how many processes of its node had some before. */
void random_start(uint64_t seed, bool has_numbers);
bool random_is_seeded(void);

/* Answers getrandom for a process. Stores the number of bytes, and returns 0 or an errno. */
int random_answer(const struct seccomp_notif *ask, size_t node, int64_t *value);

/* Replaces the 16 random bytes that the kernel has given a program that is about to start. */
void random_give(pid_t process, uint64_t stack);

#endif
