// SPDX-License-Identifier: GPL-2.0
/*
 * Clocks that are steered by requests, next to the kernel's own.
 *
 * /proc/tkcore/adjtimex  accepts a struct timex, makes the request, and then
 *                        contains the reply and the result of adjtimex(2)
 * /proc/tkcore/steered   opens the clocks at the kernel's REALTIME, if anything
 *                        is written; contains their REALTIME minus the kernel's,
 *                        in ns, and a unit of the multiplier for a second, in ps
 */
#define pr_fmt(fmt) "tkc: " fmt

#include "trial.h"

#include <linux/math64.h>
#include <linux/mutex.h>
#include <linux/proc_fs.h>
#include <linux/seq_file.h>

struct reply {
	struct tkc_timex timex;
	s32 result;
};

static DEFINE_MUTEX(lock);
static struct tkc_ntp ntp;
static bool is_open;
static struct reply reply;

static u32 open_at(const struct system_time_snapshot *kernel)
{
	u32 nsec;
	s64 sec = div_s64_rem(ktime_to_ns(kernel->real), NSEC_PER_SEC, &nsec);

	return tkc_ntp_open(&ntp, &trial.clocks.counter, counter_reading(kernel),
			    sec, nsec, HZ);
}

/* Makes the request in `reply` at the present reading. */
static void ask(void)
{
	u32 state = 0, code;

	code = tkc_adjtimex(&reply.timex, &state, &ntp,
			    trial.clocks.read_counter());
	reply.result = code == TKC_INVALID ? -EINVAL : code ? -EIO : state;
}

/* Stores REALTIME minus the kernel's, and leaves the clocks as they are. */
static u32 difference(s64 *ns)
{
	struct system_time_snapshot kernel;
	struct tkc_snapshot snapshot;
	struct tkc_ntp after = ntp;
	struct tkc_time time;
	u64 reading;
	u32 code;

	ktime_get_snapshot(&kernel);
	reading = counter_reading(&kernel);
	code = tkc_ntp_advance(&after, reading);
	tkc_ntp_snapshot(&snapshot, &after);
	if (!code)
		code = tkc_snapshot_get(&time, &snapshot, TKC_CLOCK_REALTIME,
					reading);
	if (!code)
		*ns = tkc_time_ns(&time) - ktime_to_ns(kernel.real);
	return code;
}

static int show_steered(struct seq_file *file, void *unused)
{
	s64 ns = 0;
	u32 code;

	mutex_lock(&lock);
	code = is_open ? difference(&ns) : TKC_INVALID;
	mutex_unlock(&lock);
	if (code) {
		pr_err("steered: %s\n", tkc_code_name(code));
		return -EIO;
	}
	seq_printf(file, "%lld %llu\n", ns,
		   div_u64(NSEC_PER_SEC * 1000ULL, trial.mult));
	return 0;
}

static int open_steered(struct inode *inode, struct file *file)
{
	return single_open(file, show_steered, NULL);
}

static ssize_t write_steered(struct file *file, const char __user *from,
			     size_t length, loff_t *at)
{
	struct system_time_snapshot kernel;

	mutex_lock(&lock);
	ktime_get_snapshot(&kernel);
	is_open = !open_at(&kernel);
	mutex_unlock(&lock);
	return is_open ? length : -EIO;
}

static ssize_t write_adjtimex(struct file *file, const char __user *from,
			      size_t length, loff_t *at)
{
	ssize_t result = length;

	mutex_lock(&lock);
	if (!is_open || length != sizeof(reply.timex))
		result = -EINVAL;
	else if (copy_from_user(&reply.timex, from, length))
		result = -EFAULT;
	else
		ask();
	mutex_unlock(&lock);
	return result;
}

static ssize_t read_adjtimex(struct file *file, char __user *to, size_t length,
			     loff_t *at)
{
	ssize_t result;

	mutex_lock(&lock);
	result = simple_read_from_buffer(to, length, at, &reply, sizeof(reply));
	mutex_unlock(&lock);
	return result;
}

static const struct proc_ops STEERED_OPS = {
	.proc_open = open_steered,
	.proc_read = seq_read,
	.proc_lseek = seq_lseek,
	.proc_release = single_release,
	.proc_write = write_steered,
};

static const struct proc_ops ADJTIMEX_OPS = {
	.proc_read = read_adjtimex,
	.proc_write = write_adjtimex,
	.proc_lseek = default_llseek,
};

bool steered_create(struct proc_dir_entry *top)
{
	return proc_create("steered", 0600, top, &STEERED_OPS) &&
	       proc_create("adjtimex", 0600, top, &ADJTIMEX_OPS);
}
