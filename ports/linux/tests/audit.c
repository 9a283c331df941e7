// SPDX-License-Identifier: GPL-2.0
/*
 * Makes requests of adjtimex(2) that the kernel audits: it turns auditing on, with a rule for the
 * system call, and makes them in a child. The records go to the kernel's log, for guest/groups/calls.
 * It ends with status 1 if auditing can't be turned on.
 */
#include <linux/audit.h>
#include <linux/netlink.h>
#include <stdio.h>
#include <string.h>
#include <sys/socket.h>
#include <sys/syscall.h>
#include <sys/timex.h>
#include <sys/wait.h>
#include <time.h>
#include <unistd.h>

static struct {
	struct nlmsghdr head;
	char body[sizeof(struct audit_rule_data) + 8];
} message;

/* Sends a message of auditing, and returns 0 if the kernel accepts it. */
static int ask(int type, const void *body, size_t size)
{
	static int own = -1;
	char reply[1024];
	struct nlmsghdr *head = (void *)reply;

	if (own < 0)
		own = socket(AF_NETLINK, SOCK_RAW, NETLINK_AUDIT);
	message.head = (struct nlmsghdr){ .nlmsg_len = NLMSG_LENGTH(size), .nlmsg_type = type,
					  .nlmsg_flags = NLM_F_REQUEST | NLM_F_ACK };
	memcpy(message.body, body, size);
	if (send(own, &message, message.head.nlmsg_len, 0) < 0 || recv(own, reply, sizeof(reply), 0) < 0)
		return 1;
	return head->nlmsg_type != NLMSG_ERROR || ((struct nlmsgerr *)NLMSG_DATA(head))->error;
}

static int turn_on(void)
{
	struct audit_status on = { .mask = AUDIT_STATUS_ENABLED, .enabled = 1 };
	struct audit_rule_data rule = { .flags = AUDIT_FILTER_EXIT, .action = AUDIT_ALWAYS };

	rule.mask[AUDIT_WORD(SYS_adjtimex)] |= AUDIT_BIT(SYS_adjtimex);
	return ask(AUDIT_SET, &on, sizeof(on)) || ask(AUDIT_ADD_RULE, &rule, sizeof(rule));
}

/* Waits until a second of REALTIME has begun, so that none begins between the requests. */
static void wait_for_second(void)
{
	struct timespec time;

	do
		clock_gettime(CLOCK_REALTIME, &time);
	while (time.tv_nsec > 100000000);
}

static void make_requests(void)
{
	struct timex requests[] = {
		{ .modes = ADJ_FREQUENCY, .freq = 25 << 16 },
		{ .modes = ADJ_FREQUENCY | ADJ_TICK, .freq = -3 * 65536, .tick = 10100 },
		{ .modes = ADJ_STATUS | ADJ_OFFSET | ADJ_NANO, .status = STA_PLL, .offset = 50000 },
		{ .modes = ADJ_TAI, .constant = 37 },
		{ .modes = ADJ_OFFSET_SINGLESHOT, .offset = 700 },
		{ .modes = ADJ_OFFSET_SS_READ },
		{ .modes = ADJ_MAXERROR, .maxerror = 5 },
		{ .modes = ADJ_SETOFFSET | ADJ_NANO, .time = { 12, 345 } },
		{ .modes = ADJ_SETOFFSET | ADJ_STATUS, .time = { -12, 345 }, .status = STA_FREQHOLD },
		{ .modes = ADJ_TICK, .tick = 1 },
		{ .modes = 0 },
		{ .modes = ADJ_FREQUENCY | ADJ_TICK | ADJ_STATUS, .tick = 10000, .status = STA_UNSYNC },
	};

	wait_for_second();
	for (size_t i = 0; i < sizeof(requests) / sizeof(*requests); i++)
		syscall(SYS_adjtimex, &requests[i]);
}

int main(void)
{
	int status;

	if (turn_on())
		return 1;
	if (!fork()) {	/* (whose calls are audited, since auditing is on) */
		make_requests();
		return 0;
	}
	wait(&status);
	return status != 0;
}
