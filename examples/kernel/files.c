// SPDX-License-Identifier: GPL-2.0
/*
 * /proc/tkcore/script    the trial's commands and reads, as a script of tkcore
 * /proc/tkcore/report    their results
 * /proc/tkcore/replay    accepts a script, and contains its report
 * /proc/tkcore/command   accepts "step SEC NSEC", "freq NUMBER", "tick NUMBER"
 *                        or "tai NUMBER", and applies it; or "set SEC NSEC",
 *                        which also sets the kernel's REALTIME
 * /proc/tkcore/compare   the module's MONOTONIC_RAW, MONOTONIC, REALTIME,
 *                        BOOTTIME and TAI minus the kernel's, in ns
 * steered.c adds two more.
 */
#include "trial.h"

#include <linux/module.h>
#include <linux/proc_fs.h>
#include <linux/seq_file.h>
#include <linux/slab.h>

enum { TEXT_LIMIT = 1 << 20, LINE_LIMIT = 64 };

static int show_script(struct seq_file *file, void *unused)
{
	seq_printf(file, "openhz,64,%llu,600,%llu,%lld,%u\n", trial.hz,
		   trial.opened, trial.time.sec, trial.time.nsec);
	for (size_t i = 0; i < trial.count; i++)
		print_row(file, &trial.entries[i].row);
	return 0;
}

static int show_report(struct seq_file *file, void *unused)
{
	print_opening(file, &trial.clocks.counter);
	for (size_t i = 0; i < trial.count; i++)
		print_answer(file, &trial.entries[i]);
	return 0;
}

static int show_compare(struct seq_file *file, void *unused)
{
	struct times differences;

	if (!compare(&differences))
		return -EIO;
	for (enum clock i = 0; i < CLOCKS; i++)
		seq_printf(file, "%lld%c", differences.of[i],
			   i + 1 < CLOCKS ? ' ' : '\n');
	return 0;
}

/* Commands. */

static int set_time(s64 sec, u32 nsec)
{
	struct timespec64 time = { .tv_sec = sec, .tv_nsec = nsec };

	return compare_set(&time) ? 0 : -EIO;
}

static int apply_line(const char *line)
{
	char word[8];
	u32 nsec = 0;
	s64 number;

	if (sscanf(line, "%7s %lld %u", word, &number, &nsec) < 2)
		return -EINVAL;
	if (!strcmp(word, "set"))
		return set_time(number, nsec);
	if (!strcmp(word, "step"))
		return command_apply(TKC_CMD_STEP, number, nsec) ? -EIO : 0;
	if (!strcmp(word, "freq"))
		return command_apply(TKC_CMD_FREQ, number, 0) ? -EIO : 0;
	if (!strcmp(word, "tick"))
		return command_apply(TKC_CMD_TICK, number, 0) ? -EIO : 0;
	if (!strcmp(word, "tai"))
		return command_apply(TKC_CMD_TAI_OFFSET, number, 0) ? -EIO : 0;
	return -EINVAL;
}

static ssize_t write_command(struct file *file, const char __user *from,
			     size_t length, loff_t *at)
{
	char line[LINE_LIMIT];
	int error;

	if (length >= LINE_LIMIT)
		return -EINVAL;
	if (copy_from_user(line, from, length))
		return -EFAULT;
	line[length] = '\0';
	error = apply_line(line);
	return error ? error : length;
}

/* Replay: the script that was written last, and its report. */

static DEFINE_MUTEX(replay_lock);
static char *replay_text;
static size_t replay_length;

/* Returns whether a read states a value, and has given another or none. */
static bool is_different(const struct entry *entry)
{
	return entry->row.has_value &&
	       (entry->code || tkc_time_ns(&entry->time) != entry->row.value);
}

static void show_answers(struct seq_file *file, struct script *script)
{
	struct tkc_snapshot snapshot;

	tkc_clock_snapshot(&snapshot, &script->clock);
	print_opening(file, &script->counter);
	for (size_t i = 0; i < script->count; i++) {
		struct entry entry = { .row = script->rows[i] };
		const struct row *row = &entry.row;
		u32 clock = row->is_read ? row->clock : TKC_CLOCK_MONOTONIC;

		if (!row->is_read)
			entry.code = tkc_clock_apply(&script->clock,
						     row->reading, row->command,
						     row->number, row->nsec);
		if (!row->is_read && !entry.code) {
			tkc_clock_snapshot(&snapshot, &script->clock);
			entry.front = tkc_snapshot_front(&snapshot);
		}
		if (!entry.code)
			entry.code = tkc_snapshot_get(&entry.time, &snapshot,
						      clock, row->reading);
		print_answer(file, &entry);
		if (is_different(&entry))
			seq_printf(file, "differs,%zu,%llu\n", i + 2,
				   row->value);
	}
}

static int show_replay(struct seq_file *file, void *unused)
{
	struct script script;
	struct fault fault;
	char *text;

	text = kvmalloc(TEXT_LIMIT, GFP_KERNEL);
	if (!text)
		return -ENOMEM;
	mutex_lock(&replay_lock);
	memcpy(text, replay_text, replay_length);
	if (script_parse(&script, text, replay_length, &fault)) {
		show_answers(file, &script);
		script_free(&script);
	} else {
		seq_printf(file, "tkcore: script: record %zu: %s\n",
			   fault.record, fault.text);
	}
	mutex_unlock(&replay_lock);
	kvfree(text);
	return 0;
}

static ssize_t write_replay(struct file *file, const char __user *from,
			    size_t length, loff_t *at)
{
	ssize_t result = length;

	mutex_lock(&replay_lock);
	if (length > TEXT_LIMIT - replay_length)
		result = -EFBIG;
	else if (copy_from_user(replay_text + replay_length, from, length))
		result = -EFAULT;
	else
		replay_length += length;
	mutex_unlock(&replay_lock);
	return result;
}

static int open_script(struct inode *inode, struct file *file)
{
	return single_open_size(file, show_script, NULL, TEXT_LIMIT * 4);
}

static int open_report(struct inode *inode, struct file *file)
{
	return single_open_size(file, show_report, NULL, TEXT_LIMIT * 4);
}

static int open_compare(struct inode *inode, struct file *file)
{
	return single_open(file, show_compare, NULL);
}

static int open_replay(struct inode *inode, struct file *file)
{
	if (file->f_mode & FMODE_WRITE) {
		mutex_lock(&replay_lock);
		replay_length = 0;
		mutex_unlock(&replay_lock);
	}
	return single_open_size(file, show_replay, NULL, TEXT_LIMIT);
}

#define READABLE(opens)                                                        \
	.proc_open = (opens), .proc_read = seq_read, .proc_lseek = seq_lseek,  \
	.proc_release = single_release

static const struct proc_ops SCRIPT_OPS = { READABLE(open_script) };
static const struct proc_ops REPORT_OPS = { READABLE(open_report) };
static const struct proc_ops COMPARE_OPS = { READABLE(open_compare) };
static const struct proc_ops COMMAND_OPS = { .proc_write = write_command };
static const struct proc_ops REPLAY_OPS = {
	READABLE(open_replay),
	.proc_write = write_replay,
};

int files_create(void)
{
	struct proc_dir_entry *top;

	replay_text = kvmalloc(TEXT_LIMIT, GFP_KERNEL);
	if (!replay_text)
		return -ENOMEM;
	top = proc_mkdir("tkcore", NULL);
	if (top && proc_create("script", 0400, top, &SCRIPT_OPS) &&
	    proc_create("report", 0400, top, &REPORT_OPS) &&
	    proc_create("compare", 0400, top, &COMPARE_OPS) &&
	    proc_create("command", 0200, top, &COMMAND_OPS) &&
	    proc_create("replay", 0600, top, &REPLAY_OPS) &&
	    steered_create(top))
		return 0;
	files_remove();
	return -ENOMEM;
}

void files_remove(void)
{
	remove_proc_subtree("tkcore", NULL);
	kvfree(replay_text);
}
