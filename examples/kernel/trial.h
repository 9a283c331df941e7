/* SPDX-License-Identifier: GPL-2.0 */
/* The declarations that the files of the trial share. */
#ifndef TRIAL_H
#define TRIAL_H

#include "script.h"
#include "clocks.h"

#include <linux/ktime.h>

struct proc_dir_entry;
struct seq_file;

/* The clocks that the kernel and the module both have. */
enum clock { RAW, MONOTONIC, REALTIME, BOOTTIME, TAI, CLOCKS };

/* The clocks' times at one reading, or differences of them, in ns. */
struct times {
	s64 of[CLOCKS];
};

/* A command or a read, with its result. */
struct entry {
	struct row row;
	u32 code;
	u64 front;
	struct tkc_time time; /* the time read, or MONOTONIC at the command */
};

/* The clocks of the trial, their opening, and what was done with them. */
struct trial {
	struct clocks clocks;
	struct clocks *read; /* what readers read: these, or those of changes.c */
	u64 hz; /* more than 2^32 - 1 is refused */
	u32 mult, shift; /* of the counter */
	u64 opened; /* the reading */
	struct tkc_time time; /* REALTIME there */
	struct times kernel; /* the kernel's clocks there */
	struct entry *entries; /* the first `room` commands and reads */
	size_t count, room;
	int writer; /* the processor that is sent an NMI amid a copy, or -1 */
	bool saves_sse; /* call kernel_fpu_begin() when a call needs it */
	bool reads_late; /* take readings after the sequence section */
	bool swaps_copies; /* read the copy that is being written */
	bool keeps_counter; /* read the first counter for each snapshot */
	u64 refused; /* commands */
	u64 lists, lists_wrong, lists_postponed; /* converted in interrupts */
	u64 snapshots, snapshots_wrong; /* restored from words in interrupts */
};

extern struct trial trial;

static inline u64 tkc_time_ns(const struct tkc_time *time)
{
	return (u64)time->sec * NSEC_PER_SEC + time->nsec;
}

/* counter.c: the counter, and clocks that open at the kernel's time. */
bool counter_open(const char *name);
u64 counter_reading(const struct system_time_snapshot *kernel);

/* commands.c: commands, also from an hrtimer, and the record of all. */
u32 command_apply(u32 command, s64 number, u32 nsec);
void command_record(const struct command *command);
void command_timer_start(void);
void command_timer_stop(void);
void command_timer_steer(bool is_steered);
void steer_in_process(void);

/* readers.c: readers in each context. */
void reader_pause(void);
void trial_stores(const volatile void *to);
bool readers_start(bool with_nmi);
void readers_stop(void);
bool readers_report(const char *phase);

/* compare.c: the kernel's clocks, and the module's clocks minus the kernel's. */
u64 kernel_times(struct times *times);
bool compare(struct times *differences);
bool compare_steady(unsigned int milliseconds);
bool compare_steered(unsigned int milliseconds);
bool compare_set(const struct timespec64 *time);

/* calls.c: words, readings of times, and lists. */
bool calls_check_words(void);
void calls_make_in_interrupt(void);

/* changes.c: clocks that change between two counters. */
bool changes_run(unsigned int milliseconds, bool with_nmi);
bool changes_is_near(const struct tkc_snapshot *snapshot, u64 reading);

/* suspend.c: SUSPEND and RESUME at the system's suspend. */
void suspend_register(void);
void suspend_unregister(void);

/* steered.c: clocks that are steered by requests, as files in /proc/tkcore. */
bool steered_create(struct proc_dir_entry *top);

/* files.c and print.c: the files in /proc/tkcore. */
int files_create(void);
void files_remove(void);
void print_opening(struct seq_file *file, const struct tkc_counter *counter);
void print_row(struct seq_file *file, const struct row *row);
void print_answer(struct seq_file *file, const struct entry *entry);

#endif
