/* SPDX-License-Identifier: MIT OR Apache-2.0 */
/* usage.c - what `tkrun --help` prints. */
#include "options.h"

#include <stdio.h>

static const char USAGE[] =
	"usage: tkrun [OPTIONS] -- PROGRAM ARGS..\n"
	"       tkrun node NAME -- PROGRAM ARGS..\n"
	"       tkrun ctl NODE step|freq|suspend|leap [VALUE]\n"
	"       tkrun ctl partition|heal NODE NODE\n"
	"       tkrun merge RECORD\n"
	"  --counter raw|tsc|sleeps  the counter (raw)\n"
	"  --hz N, --bits N, --maxsec N\n"
	"                            its description (1000000000 or the TSC's, 64, 1)\n"
	"  --read-cost NS            each read moves --counter sleeps by that much (0)\n"
	"  --error-ppm X             it runs so much faster than described (0)\n"
	"  --speed N                 it runs N times as fast as the host (1)\n"
	"  --start TIME              REALTIME at the start: SEC[.NSEC] or\n"
	"                            YYYY-MM-DDThh:mm:ss[.NSEC]Z (the host's), or\n"
	"                            [+-]N[s|m|h|d|y] from the host's; ' xN' sets --speed too\n"
	"  --ahead SEC               or its lead over the host's REALTIME\n"
	"  --uptime SEC[.NSEC]       MONOTONIC and BOOTTIME at the start (0)\n"
	"  --step-after-reads N:[+-]SEC[.NSEC]\n"
	"                            steps REALTIME after N reads; may be there again\n"
	"  --script FILE             opens and commands the clocks by a tkcore script\n"
	"  --record FILE             records all commands, and reads\n"
	"  --every N                 records each Nth read of a thread (1)\n"
	"  --reads N                 records at most N reads (10000000)\n"
	"  --readers                 writes who made each read of the record\n"
	"  --check                   replays the record by tkcore, and compares\n"
	"  --deny-set                calls that set the clocks get EPERM\n"
	"  --stamps                  converts the kernel's stamps of packets\n"
	"  --file-times              converts the times of files\n"
	"  --log FILE                writes a line for each call that sets the clocks\n"
	"  --node NAME[,OPTION=VALUE]..\n"
	"                            a machine with its own clocks, any number: `tkrun node` runs\n"
	"                            programs there\n"
	"  --link NODE,NODE[,OPTION=VALUE]..\n"
	"                            a network between two nodes\n"
	"  --seed N                  the same run for the same N: one thread at a time, and random\n"
	"                            numbers by N; needs --counter sleeps\n"
	"  --plan FILE               what happens to nodes: lines `at SEC NODE COMMAND [VALUE]`\n"
	"  --lax                     a program on the host's clocks doesn't end the run\n"
	"  --static                  starts nothing if tkrun can't answer system calls\n"
	"  --quiet                   prints no summary\n";

void print_usage(void)
{
	fputs(USAGE, stdout);
}
