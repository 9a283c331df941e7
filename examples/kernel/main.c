// SPDX-License-Identifier: GPL-2.0
/*
 * Runs the clocks of the library in a kernel. A timer applies a command each
 * millisecond, process, softirq, hardirq and NMI context read, and both are
 * compared with the kernel's own clocks. insmod reports the results, and fails
 * if anything is wrong. The files of /proc/tkcore then allow more.
 */
#define pr_fmt(fmt) "tkc: " fmt

#include "trial.h"

#include <linux/module.h>
#include <linux/vmalloc.h>

static unsigned int milliseconds = 1000;
module_param(milliseconds, uint, 0444);
MODULE_PARM_DESC(milliseconds, "the length of each of the three phases");

static char *counter = "tsc";
module_param(counter, charp, 0444);
MODULE_PARM_DESC(counter, "tsc, which must be the clocksource, or raw");

static int frequency;
module_param(frequency, int, 0444);
MODULE_PARM_DESC(frequency, "the kernel's in 2^-16 ppm, as in adjtimex(2)");

static bool use_nmi = true;
module_param(use_nmi, bool, 0444);
MODULE_PARM_DESC(use_nmi, "whether NMIs interrupt the commands");

static char *control = "";
module_param(control, charp, 0444);
MODULE_PARM_DESC(control,
		 "a fault that the trial must find: late, copies, sse or counter");

enum { ROOM = 32768 };

struct trial trial = {
	.clocks.notify = command_record,
	.read = &trial.clocks,
	.writer = -1,
};

static bool set_control(void)
{
	trial.saves_sse = true;
	if (!strcmp(control, "late"))
		trial.reads_late = true;
	else if (!strcmp(control, "copies"))
		trial.swaps_copies = true;
	else if (!strcmp(control, "sse"))
		trial.saves_sse = false;
	else if (!strcmp(control, "counter"))
		trial.keeps_counter = true;
	else
		return !*control;
	return true;
}

static bool run(void)
{
	bool is_well;

	if (!counter_open(counter) ||
	    command_apply(TKC_CMD_FREQ, frequency, 0)) {
		pr_err("the clocks don't open\n");
		return false;
	}
	is_well = readers_start(use_nmi);
	command_timer_start();
	is_well = is_well && compare_steady(milliseconds) &&
		  compare_steered(milliseconds);
	command_timer_stop();
	readers_stop();
	is_well &= calls_check_words();
	is_well &= readers_report("");
	pr_info("%llu commands done, %llu refused\n", trial.clocks.front,
		trial.refused);
	pr_info("interrupts converted %llu lists, %llu wrong, %llu postponed\n",
		trial.lists, trial.lists_wrong, trial.lists_postponed);
	pr_info("interrupts restored %llu snapshots and found their readings, %llu wrong\n",
		trial.snapshots, trial.snapshots_wrong);
	/* the faults of the other controls are those of the phases before */
	if (!*control || trial.keeps_counter)
		is_well &= changes_run(milliseconds, use_nmi);
	return is_well && !trial.refused && trial.lists && !trial.lists_wrong &&
	       trial.snapshots && !trial.snapshots_wrong;
}

/* With a control the module stays loaded, so that its finding can be read. */
static int __init trial_init(void)
{
	bool is_well;
	int error = -EIO;

	if (!set_control())
		return -EINVAL;
	trial.entries = vzalloc(ROOM * sizeof(struct entry));
	if (!trial.entries)
		return -ENOMEM;
	trial.room = ROOM;
	is_well = run();
	pr_info("%s\n", is_well ? "all is well" : "not all is well");
	if (is_well || *control)
		error = files_create();
	if (error) {
		vfree(trial.entries);
		return error;
	}
	suspend_register();
	return 0;
}

static void __exit trial_exit(void)
{
	suspend_unregister();
	files_remove();
	vfree(trial.entries);
}

module_init(trial_init);
module_exit(trial_exit);
MODULE_LICENSE("GPL");
MODULE_DESCRIPTION("Runs the clocks of libtkcore next to the kernel's");
