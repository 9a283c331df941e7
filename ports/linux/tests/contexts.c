// SPDX-License-Identifier: GPL-2.0
/*
 * Does MONOTONIC go back in process, softirq or NMI context while the rate changes? A thread, a timer
 * and NMIs on each processor compare each time with the last one of their own. It runs for the
 * seconds of "tkc_contexts=" on the kernel's command line, and is in both kernels.
 *
 * The rate changes by 20 percent (ADJ_TICK) several times in a millisecond. The read for an NMI
 * (ktime_get_mono_fast_ns) may go back then, as the kernel documents, so its results are only
 * printed.
 */
#include <linux/cpu.h>
#include <linux/delay.h>
#include <linux/hrtimer.h>
#include <linux/init.h>
#include <linux/kernel.h>
#include <linux/kthread.h>
#include <linux/ktime.h>
#include <linux/percpu.h>
#include <linux/timekeeping.h>
#include <linux/timex.h>
#include <asm/apic.h>
#include <asm/nmi.h>
#include "timekeeping.h"

#define PERIOD_NS (500 * NSEC_PER_USEC)	/* of the timers, and of the NMIs that they send */
#define READS 50			/* of a timer or an NMI */

enum context { PROCESS, SOFTIRQ, IN_NMI, CONTEXTS };

static const char *const names[] = { "process", "softirq", "NMI" };

/* What a context of a processor has seen. */
struct seen {
	u64 last, reads, backs, worst;
};

static DEFINE_PER_CPU(struct seen[CONTEXTS], seen);
static DEFINE_PER_CPU(struct hrtimer, softirq_timer);
static DEFINE_PER_CPU(struct hrtimer, nmi_timer);
static unsigned int seconds __initdata;

static int __init want_contexts(char *word)
{
	return !kstrtouint(word, 0, &seconds);
}
__setup("tkc_contexts=", want_contexts);

/* Compares a time with the last one of this context. */
static void look(enum context context, u64 now)
{
	struct seen *it = &(*this_cpu_ptr(&seen))[context];

	it->reads++;
	if (now < it->last) {
		it->backs++;
		it->worst = max(it->worst, it->last - now);
	}
	it->last = now;
}

static int read_in_process(void *unused)
{
	while (!kthread_should_stop()) {
		int i;

		for (i = 0; i < 1000; i++)
			look(PROCESS, ktime_get_ns());
		cond_resched();
	}
	return 0;
}

static enum hrtimer_restart read_in_softirq(struct hrtimer *timer)
{
	int i;

	for (i = 0; i < READS; i++)
		look(SOFTIRQ, ktime_get_ns());
	hrtimer_forward_now(timer, PERIOD_NS);
	return HRTIMER_RESTART;
}

static int read_in_nmi(unsigned int type, struct pt_regs *regs)
{
	int i;

	for (i = 0; i < READS; i++)
		look(IN_NMI, ktime_get_mono_fast_ns());
	return NMI_HANDLED;
}

static enum hrtimer_restart send_nmi(struct hrtimer *timer)
{
	apic->send_IPI(smp_processor_id(), NMI_VECTOR);
	hrtimer_forward_now(timer, PERIOD_NS);
	return HRTIMER_RESTART;
}

static void start_timers(void *unused)
{
	struct hrtimer *soft = this_cpu_ptr(&softirq_timer), *hard = this_cpu_ptr(&nmi_timer);

	hrtimer_init(soft, CLOCK_MONOTONIC, HRTIMER_MODE_REL_PINNED_SOFT);
	soft->function = read_in_softirq;
	hrtimer_start(soft, PERIOD_NS, HRTIMER_MODE_REL_PINNED_SOFT);
	hrtimer_init(hard, CLOCK_MONOTONIC, HRTIMER_MODE_REL_PINNED_HARD);
	hard->function = send_nmi;
	hrtimer_start(hard, PERIOD_NS + PERIOD_NS / 2, HRTIMER_MODE_REL_PINNED_HARD);
}

/* Changes the rate for some seconds of the counter. Returns how many times. */
static unsigned long __init change_rate(void)
{
	u64 end = ktime_get_raw_ns() + seconds * (u64)NSEC_PER_SEC;
	struct __kernel_timex request = { .modes = ADJ_TICK, .tick = 11000 };
	unsigned long changes;

	for (changes = 0; ktime_get_raw_ns() < end; changes++) {
		request = (struct __kernel_timex){ .modes = ADJ_TICK,
						   .tick = changes & 1 ? 9000 : 11000 };
		do_adjtimex(&request);
		usleep_range(100, 300);
	}
	request = (struct __kernel_timex){ .modes = ADJ_TICK, .tick = 10000 };
	do_adjtimex(&request);
	return changes;
}

static void __init print_context(enum context context)
{
	struct seen sum = { };
	int cpu;

	for_each_online_cpu(cpu) {
		const struct seen *it = &per_cpu(seen, cpu)[context];

		sum.reads += it->reads;
		sum.backs += it->backs;
		sum.worst = max(sum.worst, it->worst);
	}
	pr_notice("tkc: %s: %llu reads, %llu went back, by at most %llu ns\n", names[context],
		  sum.reads, sum.backs, sum.worst);
	if (context != IN_NMI)
		pr_notice("RESULT reads in %s context = %d\n", names[context], !!sum.backs);
	else
		pr_notice("RESULT reads in an NMI = %d\n", !sum.reads);
}

static int __init tkc_contexts(void)
{
	struct task_struct *threads[NR_CPUS] = { };
	int cpu;

	if (!seconds)
		return 0;
	register_nmi_handler(NMI_LOCAL, read_in_nmi, 0, "tkc");
	for_each_online_cpu(cpu) {
		threads[cpu] = kthread_create_on_cpu(read_in_process, NULL, cpu, "tkc/%u");
		wake_up_process(threads[cpu]);
	}
	on_each_cpu(start_timers, NULL, true);
	pr_notice("tkc: %lu changes of the rate on %u processors\n", change_rate(), num_online_cpus());
	for_each_online_cpu(cpu) {
		kthread_stop(threads[cpu]);
		hrtimer_cancel(&per_cpu(nmi_timer, cpu));
		hrtimer_cancel(&per_cpu(softirq_timer, cpu));
	}
	unregister_nmi_handler(NMI_LOCAL, "tkc");
	print_context(PROCESS);
	print_context(SOFTIRQ);
	print_context(IN_NMI);
	return 0;
}
late_initcall_sync(tkc_contexts);
