// SPDX-License-Identifier: GPL-2.0
/* Prints scripts and reports in the formats of tkcore (docs/TKCORE.md). */
#include "trial.h"

#include <linux/seq_file.h>
#include <linux/time.h>

static const char *refusal_word(u32 code)
{
	switch (code) {
	case TKC_FULL:
		return "full";
	case TKC_ASLEEP:
		return "asleep";
	case TKC_AWAKE:
		return "awake";
	case TKC_INVALID:
		return "invalid";
	case TKC_BEHIND:
		return "behind";
	case TKC_RANGE:
		return "range";
	default:
		return "unknown";
	}
}

static bool is_realtime(u32 clock)
{
	return clock == TKC_CLOCK_REALTIME ||
	       clock == TKC_CLOCK_REALTIME_COARSE;
}

static void print_time(struct seq_file *file, const struct tkc_time *time)
{
	seq_printf(file, "%lld.%09u", time->sec, time->nsec);
}

static void print_utc(struct seq_file *file, const struct tkc_time *time)
{
	struct tm utc;

	time64_to_tm(time->sec, 0, &utc);
	seq_printf(file, ",%04ld-%02d-%02dT%02d:%02d:%02d.%09uZ",
		   utc.tm_year + 1900, utc.tm_mon + 1, utc.tm_mday,
		   utc.tm_hour, utc.tm_min, utc.tm_sec, time->nsec);
}

void print_opening(struct seq_file *file, const struct tkc_counter *counter)
{
	u32 bits, mult, shift;

	tkc_counter_numbers(&bits, &mult, &shift, counter);
	seq_printf(file, "open,%u,%u,%u\n", bits, mult, shift);
}

/* Prints a line of a report. */
void print_answer(struct seq_file *file, const struct entry *entry)
{
	const struct row *row = &entry->row;

	if (entry->code) {
		seq_printf(file, "no,%s\n", refusal_word(entry->code));
		return;
	}
	if (row->is_read)
		seq_printf(file, "at,%s,", script_clock_word(row->clock));
	else
		seq_printf(file, "ok,%llu,", entry->front);
	print_time(file, &entry->time);
	if (row->is_read && is_realtime(row->clock))
		print_utc(file, &entry->time);
	seq_putc(file, '\n');
}

static void print_command(struct seq_file *file, const struct row *row)
{
	static const char *const WORDS[] = {
		[TKC_CMD_UPDATE] = "update",
		[TKC_CMD_SET_TIME] = "set",
		[TKC_CMD_STEP] = "step",
		[TKC_CMD_FREQ] = "freq",
		[TKC_CMD_TICK] = "tick",
		[TKC_CMD_TAI_OFFSET] = "tai",
		[TKC_CMD_SUSPEND] = "suspend",
		[TKC_CMD_RESUME] = "resume",
	};

	seq_printf(file, "%s,%llu", WORDS[row->command], row->reading);
	switch (row->command) {
	case TKC_CMD_UPDATE:
	case TKC_CMD_SUSPEND:
		break;
	case TKC_CMD_SET_TIME:
	case TKC_CMD_STEP:
	case TKC_CMD_RESUME:
		seq_printf(file, ",%lld,%u", row->number, row->nsec);
		break;
	default:
		seq_printf(file, ",%lld", row->number);
	}
}

/* Prints a record of a script. */
void print_row(struct seq_file *file, const struct row *row)
{
	if (row->is_read)
		seq_printf(file, "get,%llu,%s", row->reading,
			   script_clock_word(row->clock));
	else
		print_command(file, row);
	seq_putc(file, '\n');
}
