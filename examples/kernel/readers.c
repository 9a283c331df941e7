// SPDX-License-Identifier: GPL-2.0
/* Readers in process, softirq, hardirq and NMI context on each processor. */
#define pr_fmt(fmt) "tkc: " fmt

#include "trial.h"

#include <asm/apic.h>
#include <asm/nmi.h>
#include <linux/delay.h>
#include <linux/hrtimer.h>
#include <linux/kthread.h>
#include <linux/math64.h>
#include <linux/random.h>

enum { PERIOD_NS = 300000, READS_IN_A_ROW = 20, PAUSE_US = 128 };

enum context { PROCESS, SOFTIRQ, HARDIRQ, NMI, CONTEXTS };

static const char *const CONTEXT_WORDS[] = { "process", "softirq", "hardirq",
					     "nmi" };

/* The results of a context's reads on one processor. */
struct seen {
	u64 reads, refused, wrong, amid, back, most_back;
};

static DEFINE_PER_CPU(struct seen[CONTEXTS], seen);
static DEFINE_PER_CPU(struct hrtimer, softirq_timer);
static DEFINE_PER_CPU(struct hrtimer, hardirq_timer);
static DEFINE_PER_CPU(struct task_struct *, reader);
static bool has_nmi;
static bool sends_nmi; /* amid each copy of the clocks that readers read */
static atomic64_t latest; /* MONOTONIC that any reader but an NMI has seen */

static void raise_latest(u64 value)
{
	s64 old = atomic64_read(&latest);

	while ((u64)old < value &&
	       !atomic64_try_cmpxchg(&latest, &old, value))
		;
}

/* MONOTONIC_RAW depends only on the counter's description, to the nanosecond. */
static bool is_raw(const struct tkc_snapshot *snapshot, u64 reading)
{
	struct tkc_time raw;

	if (tkc_snapshot_get(&raw, snapshot, TKC_CLOCK_MONOTONIC_RAW, reading))
		return false;
	return tkc_time_ns(&raw) == mul_u64_u64_shr(reading - trial.opened,
						    trial.mult, trial.shift);
}

static bool is_right(const struct tkc_snapshot *snapshot, u64 reading)
{
	return trial.read == &trial.clocks ? is_raw(snapshot, reading) :
					     changes_is_near(snapshot, reading);
}

/*
 * In a reader's thread, gives a writer time to apply a command between the
 * snapshot and the reading. The counter calls it before it is read.
 */
void reader_pause(void)
{
	if (in_task() && current == this_cpu_read(reader))
		udelay(get_random_u32() % PAUSE_US);
}

static void note_back(struct seen *mine, u64 earlier, u64 value)
{
	if (value >= earlier)
		return;
	mine->back++;
	mine->most_back = max(mine->most_back, earlier - value);
}

/* clocks_look_fast(), but of the copy that is being written. */
static void look_at_other_copy(struct tkc_snapshot *snapshot, u64 *reading)
{
	struct clocks *clocks = trial.read;
	unsigned int seq;

	do {
		seq = raw_read_seqcount_latch(&clocks->latch);
		*snapshot = clocks->copies[!(seq & 1)].snapshot;
		*reading = clocks->read_counter();
	} while (read_seqcount_latch_retry(&clocks->latch, seq));
}

/* Takes a snapshot and a reading, with the fault of the trial's control. */
static void take(enum context context, struct tkc_snapshot *snapshot,
		 u64 *reading)
{
	if (context == NMI && trial.swaps_copies) {
		look_at_other_copy(snapshot, reading);
	} else if (context == NMI) {
		clocks_look_fast(trial.read, snapshot, reading);
	} else {
		clocks_look(trial.read, snapshot, reading);
		if (trial.reads_late) {
			udelay(100); /* so that a command often comes in between */
			*reading = trial.read->read_counter();
		}
	}
	if (trial.keeps_counter && trial.read != &trial.clocks)
		*reading = trial.clocks.read_counter();
}

/* Reads once. The caller stays on its processor. */
static void look(enum context context)
{
	struct seen *mine = &(*this_cpu_ptr(&seen))[context];
	u64 earlier = atomic64_read(&latest);
	struct tkc_snapshot snapshot;
	struct tkc_time time;
	u64 reading;

	smp_mb(); /* `latest` is read before the counter */
	mine->reads++;
	if (context == NMI)
		mine->amid += READ_ONCE(trial.writer) == smp_processor_id();
	take(context, &snapshot, &reading);
	mine->wrong += !is_right(&snapshot, reading);
	if (tkc_snapshot_get(&time, &snapshot, TKC_CLOCK_MONOTONIC, reading)) {
		mine->refused++;
		return;
	}
	if (context == NMI)
		return; /* may go back, as ktime_get_mono_fast_ns() may */
	note_back(mine, earlier, tkc_time_ns(&time));
	raise_latest(tkc_time_ns(&time));
}

static int read_in_process(void *unused)
{
	while (!kthread_should_stop()) {
		for (int i = 0; i < READS_IN_A_ROW; i++) {
			preempt_disable();
			look(PROCESS);
			preempt_enable();
		}
		usleep_range(100, 200);
	}
	return 0;
}

static enum hrtimer_restart read_in_softirq(struct hrtimer *timer)
{
	look(SOFTIRQ);
	hrtimer_forward_now(timer, PERIOD_NS);
	return HRTIMER_RESTART;
}

static enum hrtimer_restart read_in_hardirq(struct hrtimer *timer)
{
	look(HARDIRQ);
	hrtimer_forward_now(timer, PERIOD_NS);
	return HRTIMER_RESTART;
}

static int read_in_nmi(unsigned int type, struct pt_regs *regs)
{
	look(NMI);
	return NMI_HANDLED;
}

/* Interrupts the writer, which runs on this processor. */
static void send_nmi(void)
{
	WRITE_ONCE(trial.writer, smp_processor_id());
	apic->send_IPI(smp_processor_id(), NMI_VECTOR);
}

/* Interrupts the writer before it stores the middle word of a copy. clocks.o calls this before each
 * store (stores.h). */
void trial_stores(const volatile void *to)
{
	enum { MIDDLE = ARRAY_SIZE(((struct tkc_snapshot *)0)->tkc_private) / 2 };

	if (!READ_ONCE(sends_nmi))
		return;
	for (size_t i = 0; i < ARRAY_SIZE(trial.read->copies); i++)
		if (to == &trial.read->copies[i].snapshot.tkc_private[MIDDLE])
			send_nmi();
}

static void start_timers(void *unused)
{
	struct hrtimer *soft = this_cpu_ptr(&softirq_timer);
	struct hrtimer *hard = this_cpu_ptr(&hardirq_timer);

	hrtimer_init(soft, CLOCK_MONOTONIC, HRTIMER_MODE_REL_PINNED_SOFT);
	soft->function = read_in_softirq;
	hrtimer_start(soft, PERIOD_NS, HRTIMER_MODE_REL_PINNED_SOFT);
	hrtimer_init(hard, CLOCK_MONOTONIC, HRTIMER_MODE_REL_PINNED_HARD);
	hard->function = read_in_hardirq;
	hrtimer_start(hard, PERIOD_NS, HRTIMER_MODE_REL_PINNED_HARD);
}

bool readers_start(bool with_nmi)
{
	int cpu;

	atomic64_set(&latest, 0);
	has_nmi = false;
	for_each_possible_cpu(cpu)
		memset(per_cpu(seen, cpu), 0, sizeof(per_cpu(seen, cpu)));
	on_each_cpu(start_timers, NULL, 1);
	for_each_online_cpu(cpu) {
		struct task_struct *task;

		task = kthread_run_on_cpu(read_in_process, NULL, cpu, "tkc/%u");
		if (IS_ERR(task))
			return false;
		per_cpu(reader, cpu) = task;
	}
	if (!with_nmi)
		return true;
	if (register_nmi_handler(NMI_LOCAL, read_in_nmi, 0, "tkc"))
		return false;
	has_nmi = true;
	WRITE_ONCE(sends_nmi, true);
	return true;
}

/* The caller has stopped the commands. */
void readers_stop(void)
{
	int cpu;

	WRITE_ONCE(sends_nmi, false);
	if (has_nmi) {
		msleep(20); /* for an NMI that is on its way */
		unregister_nmi_handler(NMI_LOCAL, "tkc");
	}
	for_each_online_cpu(cpu) {
		if (per_cpu(reader, cpu))
			kthread_stop(per_cpu(reader, cpu));
		per_cpu(reader, cpu) = NULL;
		hrtimer_cancel(per_cpu_ptr(&softirq_timer, cpu));
		hrtimer_cancel(per_cpu_ptr(&hardirq_timer, cpu));
	}
}

/* Prints the reads of a context in a phase, and returns whether each was right. */
static bool report(const char *phase, enum context context)
{
	struct seen all = { 0 };
	int cpu;

	for_each_possible_cpu(cpu) {
		struct seen *one = &per_cpu(seen, cpu)[context];

		all.reads += one->reads;
		all.refused += one->refused;
		all.wrong += one->wrong;
		all.amid += one->amid;
		all.back += one->back;
		all.most_back = max(all.most_back, one->most_back);
	}
	pr_info("%s%s: %llu reads, %llu refused, %llu wrong, %llu went back, by at most %llu ns\n",
		phase, CONTEXT_WORDS[context], all.reads, all.refused, all.wrong,
		all.back, all.most_back);
	if (context != NMI)
		return all.reads && !all.refused && !all.wrong && !all.back;
	pr_info("%snmi: %llu reads interrupted a command\n", phase, all.amid);
	return !all.refused && !all.wrong && (all.amid || !has_nmi);
}

bool readers_report(const char *phase)
{
	bool is_well = true;

	for (enum context context = 0; context < CONTEXTS; context++)
		is_well &= report(phase, context);
	return is_well;
}
