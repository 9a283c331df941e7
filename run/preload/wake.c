/* SPDX-License-Identifier: MIT OR Apache-2.0 */
/*
 * wake.c - ends waits by WAKE_SIGNAL. A thread that waits for something that isn't only a time is
 * in a system call of the C library. tkrun ends it by a signal, and the signal's handler changes
 * what the call returns: not that a signal has come, but that the time has. So the C library ends
 * the wait as if its own time had come, and no wake of another thread is lost.
 */
#define _GNU_SOURCE
#include "wake.h"

#include <linux/futex.h>
#include <string.h>
#include <ucontext.h>
#include <unistd.h>

enum {
	WAITS_MOST = 8,	    /* of a thread, whose handlers wait too */
	STACK_BYTES = 1024, /* of the C library's functions: a handler's frame is larger */
	COMING_NANOS = 1000000000, /* the longest wait for a signal that was sent */
	CALL_BYTES = 2,
	OPERATION_BITS = 0x1ff, /* of a futex: less than any address */
	KEPT_MOST = 8, /* signals of others that come before tkrun's */
};

static const unsigned char CALL[CALL_BYTES] = { 0x0f, 0x05 }; /* syscall */

/* The waits of a thread, the last of which has interrupted the others. */
static _Thread_local struct {
	struct ticket ticket;
	long result;
	uintptr_t place; /* the address of its frame on the stack, about */
	bool is_blocked; /* the program has blocked the signal */
	volatile sig_atomic_t has_others; /* one of another process came all the same */
} waits[WAITS_MOST];
static _Thread_local unsigned int waits_count;

/* A signal came after its wait. */
static _Thread_local volatile sig_atomic_t is_late;

/* Returns whether a thread that is about to make a system call would wait in it. */
static bool is_wait(const greg_t *registers)
{
	switch (registers[REG_RAX]) {
	case SYS_futex:
		switch (registers[REG_RSI] & FUTEX_CMD_MASK) {
		case FUTEX_WAIT:
		case FUTEX_WAIT_BITSET:
		case FUTEX_LOCK_PI:
		case FUTEX_LOCK_PI2:
			return true;
		default:
			return false;
		}
	case SYS_futex_waitv:
	case SYS_mq_timedsend:
	case SYS_mq_timedreceive:
		return true;
	default:
		return false;
	}
}

/* Returns whether a system call, which may be over, waits for a futex without a time-out. So the C
 * library waits for its own locks, and for the mutex after a condition variable was woken. It ends
 * the process if such a wait returns that a time has come. The other calls of waits with this
 * result have an address instead of the operation, or a time-out. */
static bool is_untimed(const greg_t *registers, long result)
{
	return result == -ETIMEDOUT && !registers[REG_R10] &&
	       !(registers[REG_RSI] & ~OPERATION_BITS);
}

/* Lets the present system call return that its time has come, if this signal has
 * interrupted it, or comes just before it begins, or is restarted. */
static void end_call(greg_t *registers, long result)
{
	const unsigned char *next = (const unsigned char *)registers[REG_RIP];

	if (is_untimed(registers, result))
		return;
	if (registers[REG_RAX] == -EINTR &&
	    !memcmp(next - CALL_BYTES, CALL, CALL_BYTES)) {
		registers[REG_RAX] = result;
	} else if (is_wait(registers) && !memcmp(next, CALL, CALL_BYTES)) {
		registers[REG_RIP] += CALL_BYTES;
		registers[REG_RAX] = result;
	}
}

static bool is_near(uintptr_t stack, uintptr_t place)
{
	return stack - (place - STACK_BYTES) < 2 * STACK_BYTES;
}

/* Ends the present system call if it is that of the last wait. */
static void end_last(greg_t *registers)
{
	if (is_near((uintptr_t)registers[REG_RSP],
		    waits[waits_count - 1].place))
		end_call(registers, waits[waits_count - 1].result);
}

/* Ends the wait that a signal of tkrun is for. */
static void end_wait(greg_t *registers)
{
	unsigned int i = waits_count;

	while (i && !waiter_got_signal(&waits[i - 1].ticket))
		i--;
	if (!i)
		is_late = true;
	else if (i == waits_count)
		end_last(registers);
}

/* Returns whether tkrun has sent a signal. */
static bool is_tkruns(const siginfo_t *info)
{
	const struct machine *m = machine();

	return m && m->control && info->si_code == SI_TKILL &&
	       info->si_pid == m->control->tkrun;
}

/* Sends this thread a signal again, that it has got. */
static void send_again(siginfo_t *info)
{
	host_call(SYS_rt_tgsigqueueinfo, getpid(), own_thread(), WAKE_SIGNAL,
		  (long)info, 0, 0);
}

/* Leaves a signal pending that only the wait lets in. The wait goes on, and lets none in. */
static void leave_pending(siginfo_t *info, ucontext_t *context)
{
	sigset_t all;

	sigfillset(&all);
	pthread_sigmask(SIG_SETMASK, &all, NULL);
	send_again(info);
	sigaddset(&context->uc_sigmask, WAKE_SIGNAL);
	waits[waits_count - 1].has_others = true;
	end_last(context->uc_mcontext.gregs);
}

void wake_handle(int number, siginfo_t *info, void *context)
{
	if (is_tkruns(info))
		end_wait(((ucontext_t *)context)->uc_mcontext.gregs);
	else if (waits_count && waits[waits_count - 1].is_blocked)
		leave_pending(info, context);
	else if (waits_count && wake_is_ignored())
		end_last(((ucontext_t *)context)->uc_mcontext.gregs);
	else
		wake_pass_on(number, info, context);
}

/* Forgets waits that a handler has left by siglongjmp: the stack is above them. */
static void forget_left(uintptr_t place)
{
	stack_t stack;

	if (!waits_count || sigaltstack(NULL, &stack) ||
	    stack.ss_flags & SS_ONSTACK)
		return;
	while (waits_count && waits[waits_count - 1].place <= place) {
		waiter_let_none(&waits[waits_count - 1].ticket);
		waiter_leave(&waits[--waits_count].ticket);
	}
}

bool wake_begin(const struct machine *m, const struct ticket *ticket,
		long result, bool is_blocked)
{
	uintptr_t place = (uintptr_t)ticket;

	forget_left(place);
	if (!ticket->waiter || waits_count == WAITS_MOST ||
	    !waiters_are_found(m))
		return false;
	waits[waits_count].ticket = *ticket;
	waits[waits_count].result = result;
	waits[waits_count].place = place;
	waits[waits_count].is_blocked = is_blocked;
	waits[waits_count].has_others = false;
	atomic_signal_fence(memory_order_seq_cst);
	waits_count++;
	waiter_let_signal(ticket);
	return true;
}

/* Takes a signal, and returns whether to wait for the next one: this one is another process's,
 * which is kept, or another number has come. */
static bool take_next(const sigset_t *set, siginfo_t *info, unsigned int *kept)
{
	struct timespec most = span_of(COMING_NANOS);
	long number = host_call(SYS_rt_sigtimedwait, (long)set, (long)info,
				(long)&most, sizeof(uint64_t), 0, 0);

	if (number == WAKE_SIGNAL && !is_tkruns(info))
		return ++*kept < KEPT_MOST;
	return number == -EINTR;
}

/* Waits for a signal that was sent: it mustn't interrupt what the thread does next. */
static void take_signal(void)
{
	siginfo_t infos[KEPT_MOST];
	unsigned int kept = 0;
	sigset_t set, saved;

	sigemptyset(&set);
	sigaddset(&set, WAKE_SIGNAL);
	pthread_sigmask(SIG_BLOCK, &set, &saved);
	while (!is_late && take_next(&set, &infos[kept], &kept))
		;
	while (kept)
		send_again(&infos[--kept]);
	pthread_sigmask(SIG_SETMASK, &saved, NULL);
}

void wake_let_none(const struct ticket *ticket)
{
	is_late = false;
	if (!waiter_let_none(ticket))
		take_signal();
}

/* A handler may have left a later wait, and then returned to this one. */
void wake_end(const struct ticket *ticket)
{
	unsigned int i = waits_count;

	wake_let_none(ticket);
	while (i && (waits[i - 1].ticket.waiter != ticket->waiter ||
		     waits[i - 1].ticket.owner != ticket->owner))
		i--;
	atomic_signal_fence(memory_order_seq_cst);
	if (i)
		waits_count = i - 1;
}

bool wake_is_let(void)
{
	return !waits[waits_count - 1].has_others;
}

__attribute__((noinline)) void wake_place(void)
{
	waits[waits_count - 1].place = (uintptr_t)__builtin_frame_address(0);
}
