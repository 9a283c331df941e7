// SPDX-License-Identifier: GPL-2.0
/*
 * SUSPEND and RESUME at the system's suspend. This module's hooks run just
 * before timekeeping_suspend() and just after timekeeping_resume(), with
 * interrupts off on the only processor that is online.
 */
#define pr_fmt(fmt) "tkc: " fmt

#include "trial.h"

#include <linux/math64.h>
#include <linux/syscore_ops.h>

static ktime_t boot_offset; /* BOOTTIME minus MONOTONIC at SUSPEND */

static int suspend(void)
{
	boot_offset = ktime_mono_to_any(0, TK_OFFS_BOOT);
	return command_apply(TKC_CMD_SUSPEND, 0, 0) ? -EIO : 0;
}

/* The suspension took as long as the kernel found. */
static void resume(void)
{
	ktime_t slept = ktime_sub(ktime_mono_to_any(0, TK_OFFS_BOOT),
				  boot_offset);
	u32 code, nsec;
	s64 sec;

	sec = div_s64_rem(ktime_to_ns(slept), NSEC_PER_SEC, &nsec);
	code = command_apply(TKC_CMD_RESUME, sec, nsec);
	pr_info("suspend: slept %lld ns, RESUME code %u\n", ktime_to_ns(slept),
		code);
}

static struct syscore_ops ops = { .suspend = suspend, .resume = resume };

void suspend_register(void)
{
	register_syscore_ops(&ops);
}

void suspend_unregister(void)
{
	unregister_syscore_ops(&ops);
}
