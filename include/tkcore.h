/* SPDX-License-Identifier: MIT OR Apache-2.0 */
/*
 * tkcore.h - the timekeeping core of the Linux kernel, restated as a library for C.
 *
 * The library has three types: the description of a counter, the running clocks of a counter, and
 * a snapshot of the clocks. A snapshot converts the counter's readings into times. A fourth type,
 * struct tkc_ntp, is clocks that are steered as by adjtimex(2), and a fifth one, struct tkc_pps, a
 * signal of a pulse per second for them. The library never reads a counter: the caller passes the
 * counter's reading to each call. Link with libtkcore.a, which needs no other library: no runtime,
 * no heap and no C library.
 *
 *     struct tkc_counter counter;
 *     struct tkc_clock clock;
 *     struct tkc_snapshot snapshot;
 *     struct tkc_time time;
 *
 *     if (tkc_counter_from_hz(&counter, 64, 24000000, 600) ||
 *         tkc_clock_open(&clock, &counter, read_counter(), 1700000000, 0))
 *             return -1;
 *     ...
 *     code = tkc_clock_apply(&clock, read_counter(), TKC_CMD_UPDATE, 0, 0);
 *     tkc_clock_snapshot(&snapshot, &clock);
 *     code = tkc_snapshot_get(&time, &snapshot, TKC_CLOCK_REALTIME, read_counter());
 *
 * Units
 *   readings, stamps   cycles of the counter, 0 to 2^bits - 1
 *   mult, shift        a cycle lasts mult / 2^shift nanoseconds
 *   sec, nsec          seconds, plus 0 to 999999999 nanoseconds, as in timespec64
 *   frequency          2^-16 ppm, as in adjtimex(2): 65536 is one part in a million
 *   tick               microseconds, usually 10000, as in adjtimex(2)
 *   TAI offset         whole seconds
 * A time is a pair of sec and nsec, unless its comment says that it is a number of nanoseconds.
 * Readings wrap: 0 follows 2^bits - 1. The number of cycles from a reading to a later one is their
 * difference modulo 2^bits.
 *
 * A name in parentheses is the kernel's counterpart. It is in kernel/time/timekeeping.c unless the
 * comment names another file.
 *
 * Limits
 *   - All clocks stay below 9223372036 s (KTIME_SEC_MAX).
 *   - MONOTONIC stays below 946080000 s, 30 years (TIME_UPTIME_SEC_MAX).
 *   - REALTIME can be set to times below 8277292036 s (TIME_SETTOD_SEC_MAX). These three constants
 *     are in include/linux/time64.h and ktime.h.
 *   - The front of clocks is the number of commands that they have accepted. A change of counter is
 *     one of them, and so is each command that a discipline issues to the clocks of a tkc_ntp. The
 *     front is 0 after each call that opens clocks. Clocks whose front is 2^63 - 1 or more refuse
 *     every command with TKC_FULL. A call on a tkc_ntp returns TKC_FULL if its front leaves no room
 *     for the commands that may follow: a second of REALTIME and a command need room for 3, a
 *     request for 6. Only words can make clocks with a front above 2^63 - 1
 *     (tkc_clock_from_words, tkc_clock_load, tkc_ntp_load).
 *   - A reading is behind the last command's reading if it is more than half of 2^bits - 1 cycles
 *     ahead of it (clocksource_delta in kernel/time/timekeeping_internal.h). So apply at least one
 *     command, usually an UPDATE, in each half of the counter's range.
 *
 * The multiplier
 *   At a frequency and a tick, a cycle adds this multiplier to MONOTONIC, in 2^-shift ns:
 *       mult * (tick * 100 * 2^16 + frequency) / (10^6 * 2^16), rounded down,
 *   with the frequency limited to 32768000 in either direction, 500 ppm. SET_TIME, STEP, LEAP,
 *   SUSPEND and RESUME keep the frequency, the tick and the part of MONOTONIC below a nanosecond. A
 *   read rounds down to whole nanoseconds.
 *
 * Values
 *   A tkc_counter, a tkc_clock, a tkc_ntp, a tkc_pps and a tkc_snapshot are plain bytes of the size
 *   below.
 *   They contain no pointer, may be copied by assignment or memcpy, and need no call to release
 *   them. C code must not write into them. As with any opaque type, a value that is passed to a
 *   call must be, byte for byte, a value that a call of this header made. All other arguments may
 *   be any numbers.
 *   A tkc_clock or a tkc_snapshot can be stored as ten 64-bit words, for a shared page or a file.
 *   These words are meaningless without their counter; tkc_clock_save stores both, and tkc_ntp_save
 *   does for a tkc_ntp. tkc_snapshot_from_words, tkc_clock_from_words, tkc_clock_load and
 *   tkc_ntp_load validate words, so later calls need no test.
 *
 * Several commands
 *   To apply a group of commands as a whole, apply it to a copy of the clocks. If all are accepted,
 *   assign the copy to the clocks, and publish them once.
 *
 * Pointers
 *   - No pointer may be NULL, except for an empty list of tkc_snapshot_convert: if `room` is 0,
 *     `out` may be any address, including NULL, and if `count` is 0, so may `stamps`.
 *   - Every other pointer must be aligned for its type.
 *   - Memory that a call writes must not overlap other memory that is passed to the call.
 *   - The contents of `out` before the call don't matter.
 *
 * Contexts
 *   No call waits, takes a lock, allocates, calls back, ends the process or keeps state between
 *   calls. Each call uses less than 1.4 kB of stack. So a process, a softirq, an interrupt, an NMI
 *   or a signal handler may make any call, if the archive's code may run there. In a process it
 *   always may. A kernel module must follow the list in docs/C.md, "In the Linux kernel". In short:
 *     - Link the archive of `tools/build_c --backend rattle`. The archive of LLVM uses the red zone
 *       below the stack pointer, and requires a stack that is aligned to 16 bytes.
 *     - tkc_snapshot_convert uses SSE registers: call it between kernel_fpu_begin() and
 *       kernel_fpu_end(), and only if irq_fpu_usable(). All other calls may then be made in any
 *       context.
 *   Two threads must not write one value at the same time, and no thread may write a value while
 *   another reads it. The caller's lock must prevent both (as timekeeper_lock does, and tk_core.seq
 *   for readers). tkcore_page.h contains a page for such readers. A reader in an NMI must not wait
 *   for a writer that it interrupted (struct tk_fast).
 *
 * AArch64
 *   Calls may use the vector registers, and there is no archive for kernels.
 *
 * Codes
 *   A call that can fail returns TKC_OK when it is done, and otherwise the code of the first test
 *   that fails. A call that fails has written nothing, except for tkc_snapshot_convert,
 *   tkc_ntp_apply and tkc_adjtimex, whose comments list what they have written.
 */
#ifndef TKC_H
#define TKC_H

#ifdef __KERNEL__
#include <linux/types.h>
#else
#include <stddef.h>
#include <stdint.h>
#endif

#ifdef __cplusplus
extern "C" {
#endif

/* An archive contains code for x86-64 in the calling convention of System V, or for AArch64 in that
 * of AAPCS64, little-endian. Both have 64-bit pointers. */
#if defined(__x86_64__) && !defined(_WIN32) && !defined(__ILP32__)
#elif defined(__aarch64__) && !defined(__AARCH64EB__) && !defined(_WIN32) && !defined(__ILP32__)
#else
#error "tkcore: an archive's code is for x86-64 (System V) or little-endian AArch64 (AAPCS64)"
#endif

#if defined(__GNUC__)
#define TKC_INLINE static __inline__ __attribute__((unused))
#else
#define TKC_INLINE static inline
#endif

#if defined(__GNUC__)
#define TKC_NONNULL __attribute__((nonnull))
#define TKC_MUST_CHECK __attribute__((nonnull, warn_unused_result))
/* The same, except that the two lists may be NULL. */
#define TKC_MUST_CHECK_LISTS __attribute__((nonnull(3, 4), warn_unused_result))
/* A call that only reads its arguments and what they point to. */
#define TKC_PURE __attribute__((nonnull, pure, warn_unused_result))
#else
#define TKC_NONNULL
#define TKC_PURE
#define TKC_MUST_CHECK
#define TKC_MUST_CHECK_LISTS
#endif

/* The version of this header: major, minor, patch. tkc_version() returns the archive's version. */
#define TKC_VERSION_MAJOR 0
#define TKC_VERSION_MINOR 3
#define TKC_VERSION_PATCH 0
#define TKC_VERSION ((TKC_VERSION_MAJOR << 16) | (TKC_VERSION_MINOR << 8) | TKC_VERSION_PATCH)

/* The number of 64-bit words that a snapshot is stored as. */
#define TKC_WORDS 10

/* The number of 64-bit words that clocks are saved as, with their counter. */
#define TKC_SAVED_WORDS 15

/* The number of 64-bit words that steered clocks are saved as, with their counter. */
#define TKC_NTP_SAVED_WORDS 33

/* The codes that calls return. The numbers 48 to 63 are kept for tkcore_page.h, and 64 to 79 for
 * tkcore_session.h. */
enum tkc_code {
	/* The call is done. */
	TKC_OK = 0,

	/* Refusals of a command or a read.
	 *
	 * A command is tested in this order: FULL; ASLEEP or AWAKE; INVALID for the reading and the
	 * arguments; BEHIND; RANGE; INVALID for the resulting REALTIME. A read is tested for
	 * INVALID and then for RANGE. */

	/* The front is 2^63 - 1 or more: no further command can be counted. Of steered clocks it is
	 * 2^63 - 3 or more, or 2^63 - 6 or more for a request. */
	TKC_FULL = 1,
	/* The clocks are asleep after a SUSPEND, and the command is not RESUME. */
	TKC_ASLEEP = 2,
	/* The clocks are awake, and the command is RESUME. */
	TKC_AWAKE = 3,
	/* One of: the reading is above 2^bits - 1; an argument is outside the range that its
	 * command or call documents; SET_TIME, STEP, LEAP or tkc_clock_open_at would put REALTIME
	 * below MONOTONIC; STEP or LEAP would put REALTIME outside the range of SET_TIME. */
	TKC_INVALID = 4,
	/* The reading is behind the last accepted command's reading (clocksource_delta). For steered
	 * clocks also: it is behind the beginning of the present second, or behind the last request
	 * with modes and without TKC_ADJ_ADJTIME. RESUME never returns this code. */
	TKC_BEHIND = 5,
	/* A clock would be at or past its limit. For a command: MONOTONIC or BOOTTIME after it, or
	 * REALTIME or TAI after it unless it is SET_TIME, STEP or LEAP. For a read: the clock that
	 * is read. For tkc_clock_open_at: MONOTONIC. A change of counter also returns it if
	 * MONOTONIC_RAW is too far ahead of MONOTONIC for the new counter. */
	TKC_RANGE = 6,
	/* The clock counts, and the time is below its limit, but it is further away than the
	 * readings that tkc_snapshot_reading searches. Apply a command at or before the last of
	 * these readings, and look again in its snapshot. */
	TKC_FURTHER = 8,
	/* The clock doesn't reach the time: the clocks are asleep, the clock is a coarse one, or it
	 * reaches its limit first. Only a command can change that. */
	TKC_NEVER = 9,

	/* Numbers that this header doesn't define, faulty words, and missing room. */

	/* No command has this number (enum tkc_command). */
	TKC_BAD_COMMAND = 16,
	/* No clock has this number (enum tkc_clock_id). */
	TKC_BAD_CLOCK = 17,
	/* The words represent no snapshot of the counter, no running clocks of this frequency and
	 * tick, or no steered clocks. */
	TKC_BAD_WORDS = 18,
	/* `out` has fewer elements than `stamps`. */
	TKC_BAD_ROOM = 19,

	/* Numbers that describe no counter, tested in this order. */

	/* A reading would have fewer than 8 bits or more than 64. */
	TKC_BAD_BITS = 32,
	/* The shift is above 32. */
	TKC_BAD_SHIFT = 33,
	/* The mult is below 256. */
	TKC_BAD_MULT = 34,
	/* The mult plus 11 percent doesn't fit in 32 bits (clocksource_max_adjustment). */
	TKC_BAD_ADJUST = 35,
	/* The rate in Hz or kHz is 0 or above 2^32 - 1, or for tkc_counter_finest above 10^12 Hz; or
	 * the span is not 1 to 600 seconds. */
	TKC_BAD_RATE = 36
};

/* The commands. A comment gives the ranges of the command's arguments, `number` and `nsec`, and the
 * kernel's function. An argument that a command doesn't use may have any value. All commands except
 * RESUME first bring the clocks forward to the reading. */
enum tkc_command {
	/* Only brings the clocks forward (update_wall_time). */
	TKC_CMD_UPDATE = 0,
	/* Sets REALTIME to `number` s, 0 to 8277292035, plus `nsec` ns, 0 to 999999999. The result
	 * must not be below MONOTONIC (do_settimeofday64). */
	TKC_CMD_SET_TIME = 1,
	/* Moves REALTIME by `number` s, which may be negative, plus `nsec` ns, 0 to 999999999. The
	 * nanoseconds always move it forward. The result must be in the range of SET_TIME
	 * (timekeeping_inject_offset). */
	TKC_CMD_STEP = 2,
	/* Sets the frequency to `number` 2^-16 ppm. A value beyond 32768000 in either direction,
	 * 500 ppm, takes effect as that limit, but tkc_clock_words stores it as it was set
	 * (do_adjtimex, ADJ_FREQUENCY). */
	TKC_CMD_FREQ = 3,
	/* Sets the tick to `number` us, 9000 to 11000 (do_adjtimex, ADJ_TICK). */
	TKC_CMD_TICK = 4,
	/* Sets TAI minus REALTIME to `number` s, 0 to 100000 (do_adjtimex, ADJ_TAI). */
	TKC_CMD_TAI_OFFSET = 5,
	/* Puts the clocks to sleep: none moves until RESUME (timekeeping_suspend). */
	TKC_CMD_SUSPEND = 6,
	/* Wakes the clocks: they count again, starting at the reading. No reading from 0 to
	 * 2^bits - 1 is behind here, because the cycles since SUSPEND don't count; a reading above
	 * 2^bits - 1 gives TKC_INVALID. The suspension took `number` s, 0 to 9223372035, plus
	 * `nsec` ns, 0 to 999999999. BOOTTIME, REALTIME and TAI advance by that time
	 * (timekeeping_resume, timekeeping_inject_sleeptime64). */
	TKC_CMD_RESUME = 7,
	/* Makes a leap second: moves REALTIME by `number` s, and sets TAI minus REALTIME to `nsec` s,
	 * 0 to 100000, both at the reading. `number` is -1 to insert a second or 1 to delete one, and
	 * `nsec` is a number of seconds here. TAI runs on if the new offset is the old one minus
	 * `number`. The result must be in the range of SET_TIME (accumulate_nsecs_to_secs). */
	TKC_CMD_LEAP = 8
};

/* The clocks, with the numbers of clock_gettime(2). */
enum tkc_clock_id {
	/* The time since 1970, which can be set and stepped. It is never below MONOTONIC. */
	TKC_CLOCK_REALTIME = 0,
	/* The time since the opening, without the suspensions. It starts at 0, or at the uptime of
	 * tkc_clock_open_at, and no command moves it back. */
	TKC_CLOCK_MONOTONIC = 1,
	/* The time since the opening, without the suspensions, at the counter's own rate: no
	 * frequency and no tick changes it. It starts as MONOTONIC does. */
	TKC_CLOCK_MONOTONIC_RAW = 4,
	/* REALTIME at the last accepted command. */
	TKC_CLOCK_REALTIME_COARSE = 5,
	/* MONOTONIC at the last accepted command. */
	TKC_CLOCK_MONOTONIC_COARSE = 6,
	/* MONOTONIC plus all suspensions. */
	TKC_CLOCK_BOOTTIME = 7,
	/* REALTIME plus the TAI offset. */
	TKC_CLOCK_TAI = 11
};

/* The description of a counter (struct clocksource in include/linux/clocksource.h, without its name
 * and its hooks). */
struct tkc_counter {
	uint32_t tkc_private[3];
};

/* The running clocks of a counter, with their front (struct timekeeper in
 * include/linux/timekeeper_internal.h). */
struct tkc_clock {
	uint64_t tkc_private[13];
};

/* A snapshot of the clocks for a reader (struct tk_read_base in
 * include/linux/timekeeper_internal.h, struct vdso_data). */
struct tkc_snapshot {
	uint64_t tkc_private[11];
};

/* The numbers by which a program computes a clock without a call (struct vdso_timestamp in
 * include/vdso/datapage.h). At a reading, let `cycles` be (reading - last) & mask. If it is below
 * `span`, the clock is at sec * 10^9 + ((frac + cycles * mult) >> shift) ns, and the product and the
 * sum fit in 64 bits. tkc_line_get and tkc_line_ns compute it. */
struct tkc_line {
	/* The reading of the last command, and the greatest reading, 2^bits - 1. */
	uint64_t last;
	uint64_t mask;
	/* The number of cycles, from 0, for which the line is the clock: 0 if the clock is at its
	 * limit, and at most half of the readings. */
	uint64_t span;
	/* The clock at `last`: whole seconds, and the part below a second in 2^-shift ns. */
	uint64_t sec;
	uint64_t frac;
	/* What a cycle adds, in 2^-shift ns: 0 for a coarse clock, and while the clocks are asleep. */
	uint32_t mult;
	uint32_t shift;
};

/* A clock's time: sec * 10^9 + nsec nanoseconds, where sec is not negative and nsec is 0 to
 * 999999999 (struct timespec64, whose nsec is a long). A call that stores a time sets padding to 0,
 * so that it writes all bytes. */
struct tkc_time {
	int64_t sec;
	uint32_t nsec;
	uint32_t padding;
};

/* Clocks that a discipline steers, with their front (struct timekeeper, and the variables of
 * kernel/time/ntp.c). */
struct tkc_ntp {
	uint64_t tkc_private[28];
};

/* The state of a signal of a pulse per second (the variables pps_ of kernel/time/ntp.c, with
 * CONFIG_NTP_PPS). */
struct tkc_pps {
	uint64_t tkc_private[10];
};

/* A request of tkc_adjtimex, and its reply (struct timex in include/uapi/linux/timex.h). It has
 * that struct's layout on x86-64, so a program's own may be passed: (struct tkc_timex *)&tx. A call
 * reads and writes no padding. */
struct tkc_timex {
	/* Bits of enum tkc_adj: which of the fields the request contains. Other bits have no
	 * effect. A reply leaves it unchanged. */
	uint32_t modes;
	uint32_t modes_padding;
	/* The offset between the clock and its reference, in ns with TKC_STA_NANO, otherwise in us.
	 * In a reply: the phase still to give. With TKC_ADJ_ADJTIME it is always in us. */
	int64_t offset;
	/* The frequency, in 2^-16 ppm. */
	int64_t freq;
	/* The greatest and the estimated error, in us. */
	int64_t maxerror;
	int64_t esterror;
	/* The bits of enum tkc_sta. */
	uint32_t status;
	uint32_t status_padding;
	/* The time constant of the PLL, or with TKC_ADJ_TAI the TAI offset in seconds. */
	int64_t constant;
	/* Only replies have these two: 1 us, and 32768000 2^-16 ppm. */
	int64_t precision;
	int64_t tolerance;
	/* The step of TKC_ADJ_SETOFFSET, and in a reply REALTIME: seconds, and ns or us (tv_sec and
	 * tv_usec of the field time). */
	int64_t sec;
	int64_t sub;
	/* The tick, in us. */
	int64_t tick;
	/* The signal of a pulse per second. tkc_adjtimex sets these fields to 0, and tkc_pps_reply
	 * then writes them: its frequency in 2^-16 ppm; the mean jitter, in ns with TKC_STA_NANO,
	 * otherwise in us, rounded down; the length of an interval, 2^shift s; the mean change of
	 * the frequency, in 2^-16 ppm; and the number of pulses with too much jitter, of intervals,
	 * of intervals that were too long, and of those with too much wander. */
	int64_t ppsfreq;
	int64_t jitter;
	int32_t shift;
	uint32_t shift_padding;
	int64_t stabil;
	int64_t jitcnt;
	int64_t calcnt;
	int64_t errcnt;
	int64_t stbcnt;
	/* Only replies have it: TAI minus REALTIME, in seconds. */
	uint32_t tai;
	uint32_t padding[11];
};

/* The bits of a request's modes (ADJ_OFFSET ..), in the order in which they act. */
enum tkc_adj {
	/* The step of REALTIME by sec s, which may be negative, plus sub: below 10^9 ns with
	 * TKC_ADJ_NANO, otherwise below 10^6 us (ADJ_SETOFFSET). */
	TKC_ADJ_SETOFFSET = 0x0100,
	/* With TKC_ADJ_OFFSET: the call adjtime. REALTIME gains `offset` us, at most 500 a second,
	 * and no other bit below acts. The reply's offset is what was left of the last call. With
	 * 0x2000 (TKC_ADJ_NANO) the call only reads it. */
	TKC_ADJ_ADJTIME = 0x8000,
	TKC_ADJ_STATUS = 0x0010,
	/* Sets the unit of offsets and times: ns, or us. With both bits it is us. */
	TKC_ADJ_NANO = 0x2000,
	TKC_ADJ_MICRO = 0x1000,
	/* freq is within 140737488355 in either direction, and takes effect up to 500 ppm. */
	TKC_ADJ_FREQUENCY = 0x0002,
	/* The errors are clamped to 0 to 16000000. */
	TKC_ADJ_MAXERROR = 0x0004,
	TKC_ADJ_ESTERROR = 0x0008,
	/* The time constant, which is clamped to 0 to 10. Without TKC_STA_NANO, 4 is added, and the
	 * sum is clamped to 10. */
	TKC_ADJ_TIMECONST = 0x0020,
	/* The TAI offset, 0 to 100000. Any other number changes nothing, and the present offset
	 * needs no command. */
	TKC_ADJ_TAI = 0x0080,
	/* The offset, clamped to half a second in either direction. It acts only with
	 * TKC_STA_PLL; without it, only the rate is set again. */
	TKC_ADJ_OFFSET = 0x0001,
	/* The tick, 9000 to 11000. */
	TKC_ADJ_TICK = 0x4000
};

/* The bits of a status (STA_PLL ..). TKC_ADJ_STATUS doesn't change the bits 0xff00, except that
 * turning TKC_STA_PLL off clears them. It sets all other bits to those of the request. */
enum tkc_sta {
	/* Offsets steer the clock. */
	TKC_STA_PLL = 0x0001,
	/* A signal's frequency steers the clock, unless TKC_STA_FREQHOLD is on; its corrections do. */
	TKC_STA_PPSFREQ = 0x0002,
	TKC_STA_PPSTIME = 0x0004,
	/* Offsets at least 256 s after the last one steer by the FLL too; without this bit, those
	 * more than 2048 s after it. */
	TKC_STA_FLL = 0x0008,
	/* A second is inserted at the end of the day, or its last second is deleted. */
	TKC_STA_INS = 0x0010,
	TKC_STA_DEL = 0x0020,
	/* The clock isn't synchronized. The library sets it at tkc_ntp_open, at a set, a step or a
	 * LEAP, and when maxerror has grown to more than 16000000. */
	TKC_STA_UNSYNC = 0x0040,
	/* Offsets leave the frequency as it is. */
	TKC_STA_FREQHOLD = 0x0080,
	/* A signal is present: tkc_ntp_pulse turns it on, and tkc_pps_seconds off, with the next
	 * three bits. These say what is wrong with the last pulse: its time, the frequency of the
	 * interval that it ends, or the length of this interval. */
	TKC_STA_PPSSIGNAL = 0x0100,
	TKC_STA_PPSJITTER = 0x0200,
	TKC_STA_PPSWANDER = 0x0400,
	TKC_STA_PPSERROR = 0x0800,
	/* The clock's hardware is at fault. The library never sets it. */
	TKC_STA_CLOCKERR = 0x1000,
	/* Offsets and times are in ns. */
	TKC_STA_NANO = 0x2000,
	/* The last offset steered by the FLL. */
	TKC_STA_MODE = 0x4000
};

/* The states of a steered clock, as adjtimex(2) returns them (TIME_OK ..). */
enum tkc_time_state {
	/* No leap second is announced. */
	TKC_TIME_OK = 0,
	/* A second will be inserted, or deleted, at the end of the day. */
	TKC_TIME_INS = 1,
	TKC_TIME_DEL = 2,
	/* The inserted second is in progress. */
	TKC_TIME_OOP = 3,
	/* The leap second is over, and the status still asks for it. */
	TKC_TIME_WAIT = 4,
	/* The status has TKC_STA_UNSYNC or TKC_STA_CLOCKERR, or tkc_pps_reply found an error. */
	TKC_TIME_ERROR = 5
};

/* Returns the version of the archive, to be compared with TKC_VERSION. A call whose comment names
 * no function of the kernel, such as this one, has no counterpart there. */
uint32_t tkc_version(void);

/*
 * Makes the counter of these numbers: readings of 8 to 64 bits, a shift of 0 to 32, and a mult of
 * 256 to 3869339906, so that 11 percent more still fits in 32 bits (__clocksource_register_scale in
 * kernel/time/clocksource.c). Returns TKC_BAD_BITS, TKC_BAD_SHIFT, TKC_BAD_MULT or TKC_BAD_ADJUST,
 * tested in this order, if a number is out of its range.
 */
TKC_MUST_CHECK
enum tkc_code tkc_counter_new(struct tkc_counter *out, uint32_t bits, uint32_t mult,
			      uint32_t shift);

/*
 * Makes the counter that runs at hz cycles a second, 1 to 2^32 - 1, with readings of 8 to 64 bits,
 * for gaps of up to maxsec seconds, 1 to 600 (clocks_calc_mult_shift,
 * __clocksource_update_freq_scale in kernel/time/clocksource.c). `bits` doesn't limit maxsec.
 *
 * Let z be the number of leading zeros of maxsec * hz in 64 bits. The shift is the greatest of 1 to
 * 32 at which mult = (10^9 * 2^shift + hz / 2) / hz is below 2^32 and below 2^z. If
 * mult + mult * 11 / 100 then doesn't fit in 32 bits, mult is halved and the shift is decremented.
 * All divisions round down. A smaller maxsec gives a finer mult (docs/C.md, "Choosing maxsec").
 *
 * Returns TKC_BAD_BITS, and then TKC_BAD_RATE, if a number is out of its range.
 */
TKC_MUST_CHECK
enum tkc_code tkc_counter_from_hz(struct tkc_counter *out, uint32_t bits, uint64_t hz,
				  uint32_t maxsec);

/*
 * Makes the counter that runs at khz cycles a millisecond, 1 to 2^32 - 1, with readings of 8 to 64
 * bits, for gaps of up to maxsec seconds, 1 to 600 (clocksource_register_khz in
 * include/linux/clocksource.h). Call it for a counter above 2^32 - 1 Hz, 4.29 GHz, or if only the
 * kHz are known, as of tsc_khz. Up to 4294967 kHz it makes the counter that tkc_counter_from_hz
 * makes at khz * 1000.
 *
 * Let z be the number of leading zeros of maxsec * 1000 * khz in 64 bits. The shift is the greatest
 * of 1 to 32 at which mult = (10^6 * 2^shift + khz / 2) / khz is below 2^32 and below 2^z. Then
 * mult may be halved as by tkc_counter_from_hz.
 *
 * Returns TKC_BAD_BITS, and then TKC_BAD_RATE, if a number is out of its range.
 */
TKC_MUST_CHECK
enum tkc_code tkc_counter_from_khz(struct tkc_counter *out, uint32_t bits, uint64_t khz,
				   uint32_t maxsec);

/*
 * Makes the counter that runs at hz cycles a second, 1 to 10^12, with readings of 8 to 64 bits, and
 * with the finest mult for gaps of up to maxsec seconds, 1 to 600. In such a gap, tkc_line_get
 * reads each clock up to its limit with one product of 64 bits, at any frequency and tick, unless
 * the gap is above half of the counter's range.
 *
 * The shift is the greatest of 1 to 32 at which mult = (10^9 * 2^shift + hz / 2) / hz, as in
 * clocks_calc_mult_shift, and most = mult + mult * 11 / 100 have these two properties: most is
 * below 2^32, and 10^9 * 2^shift + maxsec * hz * most is at most 2^64. All divisions round down.
 * tkc_counter_from_hz bounds the bits of both factors instead, and may halve the mult, so its shift
 * is often smaller (docs/C.md, "Choosing maxsec").
 *
 * Returns TKC_BAD_BITS, and then TKC_BAD_RATE, if a number is out of its range.
 */
TKC_MUST_CHECK
enum tkc_code tkc_counter_finest(struct tkc_counter *out, uint32_t bits, uint64_t hz,
				 uint32_t maxsec);

/*
 * Stores the numbers of a counter: the bits of a reading, and mult and shift (the fields mask, mult
 * and shift of struct clocksource). tkc_counter_new makes the same counter from them.
 */
TKC_NONNULL
void tkc_counter_numbers(uint32_t *bits, uint32_t *mult, uint32_t *shift,
			 const struct tkc_counter *counter);

/*
 * Returns the cycles from one reading to a later one: to - from, modulo 2^bits. Both may be any
 * numbers: bits above the counter's are ignored (clocksource_delta without its test: more than half
 * of 2^bits - 1 cycles lead back).
 */
TKC_PURE
uint64_t tkc_counter_gap(const struct tkc_counter *counter, uint64_t from, uint64_t to);

/*
 * Returns the nanoseconds of any number of cycles at the counter's own rate:
 * cycles * mult / 2^shift, rounded down, or 2^64 - 1 if they are more (clocksource_cyc2ns in
 * include/linux/clocksource.h, which drops the upper bits of a product beyond 2^64). The clocks'
 * frequency and tick have no effect.
 */
TKC_PURE
uint64_t tkc_counter_nanos(const struct tkc_counter *counter, uint64_t cycles);

/* Stores the counter whose readings a snapshot converts: its clocks had it when it was made. */
TKC_NONNULL
void tkc_snapshot_counter(struct tkc_counter *out, const struct tkc_snapshot *snapshot);

/*
 * Opens clocks at this reading, awake and at their usual rate, with no command accepted. At the
 * reading, MONOTONIC, MONOTONIC_RAW and BOOTTIME are 0, and REALTIME and TAI are sec s, 0 to
 * 8277292035, plus nsec ns, 0 to 999999999 (timekeeping_init). Returns TKC_INVALID if the reading,
 * sec or nsec is out of its range.
 */
TKC_MUST_CHECK
enum tkc_code tkc_clock_open(struct tkc_clock *out, const struct tkc_counter *counter,
			     uint64_t reading, int64_t sec, uint32_t nsec);

/*
 * Opens clocks that have an uptime at this reading: MONOTONIC, MONOTONIC_RAW and BOOTTIME are
 * uptime_sec s, 0 to 946079999, plus uptime_nsec ns, 0 to 999999999. All else is as by
 * tkc_clock_open. Use it to open clocks as if they had run for a while.
 *
 * Returns, in this order:
 *   TKC_INVALID  tkc_clock_open would return it, or the uptime is below 0 s, or uptime_nsec is
 *                above 999999999
 *   TKC_RANGE    the uptime is 946080000 s or more, the limit of MONOTONIC
 *   TKC_INVALID  REALTIME would be below MONOTONIC
 */
TKC_MUST_CHECK
enum tkc_code tkc_clock_open_at(struct tkc_clock *out, const struct tkc_counter *counter,
				uint64_t reading, int64_t sec, uint32_t nsec, int64_t uptime_sec,
				uint32_t uptime_nsec);

/*
 * Applies a command to the clocks, and adds 1 to their front if it is accepted (enum tkc_command
 * lists the commands). A refused command leaves the clocks unchanged, byte for byte.
 *
 * Returns, in this order:
 *   TKC_BAD_COMMAND  no command has the number
 *   TKC_FULL         the front is 2^63 - 1 or more
 *   TKC_ASLEEP       the clocks are asleep, and the command is not RESUME
 *   TKC_AWAKE        the clocks are awake, and the command is RESUME
 *   TKC_INVALID      the reading is above 2^bits - 1, or an argument is out of its range
 *   TKC_BEHIND       the reading is behind the last command's, and the command is not RESUME
 *   TKC_RANGE        MONOTONIC or BOOTTIME would be at or past its limit; or REALTIME or TAI,
 *                    unless the command is SET_TIME, STEP or LEAP
 *   TKC_INVALID      SET_TIME, STEP or LEAP would put REALTIME below MONOTONIC, or STEP or LEAP
 *                    would put it outside the range of SET_TIME
 */
TKC_MUST_CHECK
enum tkc_code tkc_clock_apply(struct tkc_clock *clock, uint64_t reading, uint32_t command,
			      int64_t number, uint32_t nsec);

/*
 * Lets the clocks go on over another counter, and adds 1 to their front if the change is accepted
 * (change_clocksource, tk_setup_internals). A refused change leaves the clocks unchanged, byte for
 * byte.
 *
 * `reading` is a reading of the present counter, and `first` one of `counter`, the new one. Take
 * both at the same moment, because the time between them doesn't count. The call brings the clocks
 * forward to `reading`, as an UPDATE does. Then they count the cycles of the new counter, starting
 * at `first`:
 *   - Every clock has the same time, in nanoseconds, at `first` as at `reading`, and MONOTONIC
 *     doesn't go back. The coarse clocks have the times to which the clocks were brought forward.
 *   - The frequency, the tick, the offsets and the TAI offset stay. The new multiplier follows from
 *     the frequency and the tick.
 *   - If the new shift is smaller, the parts of MONOTONIC and MONOTONIC_RAW below a nanosecond are
 *     rounded down to 2^-shift ns. Otherwise nothing is lost.
 *   - Clocks that are asleep aren't brought forward, and stay asleep. `reading` may then be behind.
 *     RESUME takes a reading of the new counter.
 * All later readings are readings of the new counter. Snapshots and words that were made before
 * keep the old one, and words that are made later need the new one. tkc_clock_save stores clocks
 * with their counter. A page and a latch of tkcore_page.h publish it with the clocks.
 *
 * Returns, in this order:
 *   TKC_FULL     the front is 2^63 - 1 or more
 *   TKC_INVALID  first is above 2^bits - 1 of the new counter, or reading above 2^bits - 1 of the
 *                present one
 *   TKC_BEHIND   the clocks are awake, and the reading is behind the last command's
 *   TKC_RANGE    the clocks are awake, and MONOTONIC, BOOTTIME, REALTIME or TAI would be at or past
 *                its limit; or MONOTONIC_RAW would be further ahead of MONOTONIC than the slowest
 *                rate of the new counter can bring it (tkc_clock_from_words has the formula)
 */
TKC_MUST_CHECK
enum tkc_code tkc_clock_change_counter(struct tkc_clock *clock, uint64_t reading,
				       const struct tkc_counter *counter, uint64_t first);

/* Return the frequency of the clocks as it was set, also beyond 500 ppm, in 2^-16 ppm, and their
 * tick in us: the numbers that tkc_clock_words stores. */
TKC_PURE int64_t tkc_clock_frequency(const struct tkc_clock *clock);
TKC_PURE int64_t tkc_clock_tick(const struct tkc_clock *clock);

/*
 * Makes a snapshot of the clocks for readers (update_vsyscall in kernel/time/vsyscall.c,
 * update_fast_timekeeper). Use it for readings up to the reading of the next accepted command. At a
 * reading after that one, it may give a later time than the next snapshot gives. It doesn't know
 * the time before its last command: stamps from before that command need an earlier snapshot.
 */
TKC_NONNULL void tkc_clock_snapshot(struct tkc_snapshot *out, const struct tkc_clock *clock);

/* Returns the front of a snapshot: the front of its clocks when it was made. */
TKC_PURE uint64_t tkc_snapshot_front(const struct tkc_snapshot *snapshot);

/* Returns TAI minus REALTIME in seconds, 0 to 100000. */
TKC_PURE uint32_t tkc_snapshot_tai(const struct tkc_snapshot *snapshot);

/* Returns 1 if the clocks are asleep in a snapshot, otherwise 0. */
TKC_PURE uint32_t tkc_snapshot_asleep(const struct tkc_snapshot *snapshot);

/*
 * Reads a clock at a reading (ktime_get_ts64, ktime_get_real_ts64, ktime_get_raw_ts64,
 * ktime_get_boottime_ts64, ktime_get_clocktai_ts64, ktime_get_coarse_ts64,
 * ktime_get_coarse_real_ts64; clock_gettime(2)). For a reading behind the last command, and for any
 * reading while the clocks are asleep, the result is the clock's value at the last command.
 *
 * Returns, in this order: TKC_BAD_CLOCK, whatever the reading is; TKC_INVALID if the reading is
 * above 2^bits - 1, for coarse clocks too; TKC_RANGE if the clock is at or past its limit.
 */
TKC_MUST_CHECK
enum tkc_code tkc_snapshot_get(struct tkc_time *out, const struct tkc_snapshot *snapshot,
			       uint32_t clock, uint64_t reading);

/*
 * Reads a clock as it was at the last command, without a reading of the counter: BOOTTIME and TAI
 * too (ktime_get_coarse_ts64, ktime_get_coarse_real_ts64, ktime_get_coarse_boottime,
 * ktime_get_coarse_clocktai). It stores what tkc_snapshot_get stores at the last command's reading.
 * Returns TKC_BAD_CLOCK.
 */
TKC_MUST_CHECK
enum tkc_code tkc_snapshot_coarse(struct tkc_time *out, const struct tkc_snapshot *snapshot,
				  uint32_t clock);

/*
 * Stores the numbers by which a program computes a clock without a call, up to the next accepted
 * command (update_vsyscall). As far as the line's span reaches, its value is the one that
 * tkc_snapshot_get stores, to the nanosecond. Returns TKC_BAD_CLOCK.
 */
TKC_MUST_CHECK
enum tkc_code tkc_snapshot_line(struct tkc_line *out, const struct tkc_snapshot *snapshot,
				uint32_t clock);

/*
 * Finds the first reading at which a clock has reached a time, sec s plus nsec ns: the first at
 * which tkc_snapshot_get stores this time or a later one. Use it to set a timer
 * (clockevents_program_event in kernel/time/clockevents.c converts the remaining time instead). sec
 * and nsec may be any numbers: the time is sec * 10^9 + nsec ns.
 *
 * The search covers the last command's reading and the (2^bits - 1) / 2 readings after it, rounded
 * down. A later snapshot may give another reading for the same time.
 *
 * Returns TKC_BAD_CLOCK. If the clock has reached the time at none of these readings, it returns:
 *   TKC_FURTHER  the clock counts, the time is below its limit, and tkc_snapshot_get stores an
 *                earlier time at every one of these readings. Apply a command, usually an UPDATE,
 *                at or before the last of them, and look again in its snapshot.
 *   TKC_NEVER    otherwise: the clocks are asleep, the clock is a coarse one, or the clock reaches
 *                its limit before the time. Waiting doesn't help; a command may.
 */
TKC_MUST_CHECK
enum tkc_code tkc_snapshot_reading(uint64_t *out, const struct tkc_snapshot *snapshot,
				   uint32_t clock, int64_t sec, uint32_t nsec);

/*
 * Tests a step of REALTIME by sec s, which may be negative, plus nsec ns, 0 to 999999999, and makes
 * none. Stores REALTIME at the reading in *before, and in *after what TKC_CMD_STEP would make of it
 * there (the tests and the sum of timekeeping_inject_offset in kernel/time/timekeeping.c). If the
 * clocks then accept a STEP at this reading, without another command in between, its old and new
 * REALTIME are these. For a time that is to be set, step by it minus *before of a step by 0.
 *
 * Returns the code that tkc_clock_apply returns for this STEP, except for TKC_FULL:
 *   TKC_ASLEEP   the clocks are asleep
 *   TKC_INVALID  the reading is above 2^bits - 1, or nsec is above 999999999
 *   TKC_BEHIND   the reading is behind the last command's
 *   TKC_RANGE    MONOTONIC or BOOTTIME is at or past its limit
 *   TKC_INVALID  REALTIME would be below MONOTONIC, or outside the range of SET_TIME
 */
TKC_MUST_CHECK
enum tkc_code tkc_snapshot_step(struct tkc_time *before, struct tkc_time *after,
				const struct tkc_snapshot *snapshot, uint64_t reading, int64_t sec,
				uint32_t nsec);

/*
 * Converts `count` stamps into a clock's times, as numbers of nanoseconds, and stores them in the
 * first `count` of the `room` elements of `out` (timekeeping_cycles_to_ns). The other elements stay
 * as they were. Sets *done to the number of converted stamps, which is `count` at TKC_OK. A `count`
 * of 0 gives TKC_OK; "Pointers" above says when a list may be NULL.
 *
 * Returns, in this order:
 *   TKC_BAD_CLOCK  no clock has the number: neither out nor *done is written
 *   TKC_BAD_ROOM   room is below count: neither out nor *done is written
 *   TKC_INVALID or TKC_RANGE
 *                  stamps[*done] is the first stamp for which tkc_snapshot_get fails, and this is
 *                  its code: the times of the stamps before it are written, and the other elements
 *                  of out stay as they were
 */
TKC_MUST_CHECK_LISTS
enum tkc_code tkc_snapshot_convert(uint64_t *out, size_t room, size_t *done,
				   const struct tkc_snapshot *snapshot, uint32_t clock,
				   const uint64_t *stamps, size_t count);

/*
 * Stores a snapshot as ten 64-bit words (update_vsyscall stores it in struct vdso_data).
 * tkc_snapshot_from_words makes the same snapshot from the words and the counter.
 *   0  the front; any number
 *   1  the last reading: of the last accepted command, or of the opening; 0 to 2^bits - 1
 *   2  the multiplier in force: a cycle after the last reading adds this number of 2^-shift ns to
 *      MONOTONIC; 1 to mult plus 11 percent
 *   3  MONOTONIC at the last reading, the part below a second in 2^-shift ns: below 10^9 * 2^shift
 *   4  MONOTONIC at the last reading, whole seconds: below 946080000
 *   5  REALTIME minus MONOTONIC, in ns
 *   6  BOOTTIME minus MONOTONIC, in ns
 *   7  TAI minus REALTIME in seconds, 0 to 100000, times 2, plus 1 if the clocks are asleep
 *   8  MONOTONIC_RAW at the last reading, the part below a second in 2^-shift ns: below
 *      10^9 * 2^shift
 *   9  MONOTONIC_RAW at the last reading, whole seconds: below 1060000000
 */
TKC_NONNULL void tkc_snapshot_words(uint64_t words[TKC_WORDS], const struct tkc_snapshot *snapshot);

/*
 * Makes the snapshot of a counter that ten words represent. The words may have any values (do_hres
 * in lib/vdso/gettimeofday.c reads such words without a test). Returns TKC_BAD_WORDS if a word is
 * out of its range, or if REALTIME, BOOTTIME or TAI would be at or past its limit at the last
 * reading.
 */
TKC_MUST_CHECK
enum tkc_code tkc_snapshot_from_words(struct tkc_snapshot *out, const struct tkc_counter *counter,
				      const uint64_t words[TKC_WORDS]);

/*
 * Stores clocks as the ten words of their snapshot, the frequency in 2^-16 ppm as it was set, also
 * beyond 500 ppm, and the tick in us. tkc_clock_from_words makes the same clocks from these numbers
 * and the counter.
 */
TKC_NONNULL
void tkc_clock_words(uint64_t words[TKC_WORDS], int64_t *frequency, int64_t *tick,
		     const struct tkc_clock *clock);

/*
 * Makes the clocks of a counter that ten words, a frequency and a tick represent. All of these may
 * be any numbers. Returns TKC_BAD_WORDS if tkc_snapshot_from_words refuses the words, or if no
 * running clocks have these words with this frequency and tick:
 *   - the tick is not 9000 to 11000;
 *   - word 2 is not the multiplier of the frequency and the tick; or
 *   - MONOTONIC_RAW is further ahead of MONOTONIC than the slowest rate can bring it: not
 *     raw * slowest <= mono * mult. Here raw is MONOTONIC_RAW (words 9 and 8) and mono MONOTONIC
 *     (words 4 and 3), both in 2^-shift ns. slowest is the multiplier at the frequency -32768000
 *     and the tick 9000.
 */
TKC_MUST_CHECK
enum tkc_code tkc_clock_from_words(struct tkc_clock *out, const struct tkc_counter *counter,
				   const uint64_t words[TKC_WORDS], int64_t frequency,
				   int64_t tick);

/*
 * Stores clocks with their counter as 15 64-bit words, from which tkc_clock_load makes the same
 * clocks. For a file, another process, or another machine (tkc_clock_change_counter):
 *   0 to 9    the words of their snapshot (tkc_snapshot_words)
 *   10 to 12  bits, mult and shift of their counter (tkc_counter_numbers)
 *   13        the frequency in 2^-16 ppm as it was set, as an int64_t
 *   14        the tick in us, as an int64_t
 */
TKC_NONNULL
void tkc_clock_save(uint64_t words[TKC_SAVED_WORDS], const struct tkc_clock *clock);

/*
 * Makes the clocks that 15 words represent. The words may have any values. Returns TKC_BAD_WORDS
 * if words 10 to 12 are the numbers of no counter (tkc_counter_new), or if tkc_clock_from_words
 * refuses words 0 to 9, the frequency and the tick for this counter.
 */
TKC_MUST_CHECK
enum tkc_code tkc_clock_load(struct tkc_clock *out, const uint64_t words[TKC_SAVED_WORDS]);

/*
 * The clocks of a tkc_ntp are steered by a discipline, as the kernel's clocks are by adjtimex(2).
 * Requests pass it offsets, frequencies and leap seconds, and it decides how long each second of
 * REALTIME lasts. docs/NTP.md says how to use it, and lists the differences from Linux.
 *
 * tkc_ntp_advance, tkc_adjtimex and, except for RESUME, tkc_ntp_apply first advance to their
 * reading: each second of REALTIME that has begun since the last call begins at its own reading,
 * with its leap second and its rate. So advancing often or seldom leaves the same clocks with the
 * same front, if no call is refused. At the reading of a call, MONOTONIC may be less than a
 * snapshot from before that call gives there. If others read the clocks meanwhile, call
 * tkc_ntp_advance_late before each of these calls, at the same reading: then no second is due any
 * more, and MONOTONIC doesn't go back.
 * Readers in other threads should get a new snapshot for each second: set a timer to
 * tkc_ntp_next_second.
 *
 * The front counts each command that the clocks accept, as the journal of tkcore does. A call
 * issues a command to the clocks only if their rate, their time or the TAI offset changes.
 * docs/NTP.md, "The exact rate", has the formulas. So apply TKC_CMD_UPDATE with tkc_ntp_apply at
 * least once in each half of the counter's range. Otherwise a reading is treated as behind, and
 * tkc_ntp_next_second finds no reading.
 *
 * TKC_BEHIND refuses a reading that is behind the last command, the beginning of the present
 * second, or the last request with modes and without TKC_ADJ_ADJTIME. FREQ and TICK are such
 * requests. A reading may be behind an earlier call that changed nothing.
 */

/*
 * Opens clocks as tkc_clock_open does, steered by a fresh discipline: its status is TKC_STA_UNSYNC,
 * its time constant 2, and each second a nominal one (ntp_init in kernel/time/ntp.c). Phases are
 * divided into hz parts of a second, 1 to 1024: with the kernel's HZ, replies are the kernel's to
 * the last digit. Returns TKC_INVALID if tkc_clock_open does, or if hz is out of its range.
 */
TKC_MUST_CHECK
enum tkc_code tkc_ntp_open(struct tkc_ntp *out, const struct tkc_counter *counter, uint64_t reading,
			   int64_t sec, uint32_t nsec, uint32_t hz);

/*
 * Opens clocks that have an uptime at this reading: MONOTONIC, MONOTONIC_RAW and BOOTTIME are
 * uptime_sec s plus uptime_nsec ns, as by tkc_clock_open_at. All else is as by tkc_ntp_open.
 * Returns the code of tkc_clock_open_at, or TKC_INVALID if hz is out of its range.
 */
TKC_MUST_CHECK
enum tkc_code tkc_ntp_open_at(struct tkc_ntp *out, const struct tkc_counter *counter,
			      uint64_t reading, int64_t sec, uint32_t nsec, int64_t uptime_sec,
			      uint32_t uptime_nsec, uint32_t hz);

/*
 * Begins each second of REALTIME up to the reading (second_overflow in kernel/time/ntp.c). A second
 * adds up to 3 to the front: 1 for its leap, and 1 each for a new tick and a new frequency. If no
 * second is due, nothing changes. Use tkc_ntp_advance_late if others may have read the clocks
 * between the beginning of such a second and this call.
 *
 * Returns, in this order, and changes nothing then, except at TKC_FULL:
 *   TKC_ASLEEP   the clocks are asleep
 *   TKC_INVALID  the reading is above 2^bits - 1
 *   TKC_BEHIND   the reading is behind the last command's
 *   TKC_RANGE    a clock would be at or past its limit
 *   TKC_BEHIND   the reading is behind the beginning of the present second, or the last request
 *                with modes and without TKC_ADJ_ADJTIME
 *   TKC_FULL     the front is 2^63 - 3 or more where a second is due: the seconds before it have
 *                begun, and it hasn't
 */
TKC_MUST_CHECK
enum tkc_code tkc_ntp_advance(struct tkc_ntp *ntp, uint64_t reading);

/*
 * Begins each second of REALTIME up to the reading, as tkc_ntp_advance does, but issues all
 * commands to the clocks at the reading (as timekeeping_advance does at a tick). It is for clocks
 * that others read meanwhile: at the reading, the snapshots from before and after the call give the
 * same MONOTONIC. So it doesn't go back for readers that use the former snapshot only up to the
 * reading. A leap moves REALTIME at the reading.
 *
 * For the discipline the second still begins at its own reading. Later seconds make up for what the
 * former rate added too much or too little since then. If several seconds are due, the first lasts
 * up to the reading, and the others begin there. The phases of those between the first and the last
 * are lost, as in the kernel.
 *
 * Returns the codes of tkc_ntp_advance, in the same order, and changes nothing then, except at
 * TKC_FULL.
 */
TKC_MUST_CHECK
enum tkc_code tkc_ntp_advance_late(struct tkc_ntp *ntp, uint64_t reading);

/*
 * Advances to the reading, and applies a command of tkc_clock_apply to the steered clocks:
 *   - FREQ and TICK are requests: TKC_ADJ_FREQUENCY with the frequency clamped to 32768000 in
 *     either direction, and TKC_ADJ_TICK. The discipline then keeps steering. They add to the front
 *     what tkc_adjtimex does: 0, if the clocks keep their rate.
 *   - Any other accepted command adds 1 to the front, and SET_TIME, STEP, LEAP and RESUME up to 2
 *     more, for the rate of the second in which the clocks are then.
 *   - SET_TIME, STEP and LEAP clear the discipline (ntp_clear in kernel/time/ntp.c): the phase, the
 *     rest of adjtime, the errors and the second of a leap are forgotten.
 *   - The seconds that SET_TIME, STEP, LEAP and RESUME jump over never begin, and no leap second of
 *     theirs happens.
 *
 * Returns, in this order:
 *   TKC_BAD_COMMAND  no command has the number: nothing has changed
 *   TKC_INVALID      a TICK is out of its range: nothing has changed
 *   TKC_ASLEEP, TKC_INVALID, TKC_BEHIND or TKC_RANGE
 *                    as tkc_ntp_advance, if the command is not RESUME: nothing has changed
 *   TKC_FULL         the front is 2^63 - 3 or more where a second is due, or the seconds up to the
 *                    reading have begun: the second, or the command, needs room for 3. FREQ and
 *                    TICK need room for 6, so for them it is 2^63 - 6
 *   as tkc_clock_apply
 *                    the clocks refuse the command: they have only advanced, and a refused
 *                    RESUME changes nothing
 */
TKC_MUST_CHECK
enum tkc_code tkc_ntp_apply(struct tkc_ntp *ntp, uint64_t reading, uint32_t command, int64_t number,
			    uint32_t nsec);

/*
 * Lets steered clocks go on over another counter (change_clocksource in kernel/time/timekeeping.c),
 * whose reading `first` was taken at the same moment as `reading` of the present one, and adds 1 to
 * the front. First, each second of REALTIME up to the reading begins, as by tkc_ntp_advance; while
 * the clocks are asleep, none does. tkc_clock_change_counter says what stays. The discipline stays
 * too, and what the clocks lag behind is carried over, rounded down if the shift of `counter` is
 * smaller. (Linux drops it.) The next second gets the rate that it needs. A snapshot or a line of
 * the former counter doesn't take readings of the new one.
 *
 * Returns, in this order:
 *   TKC_INVALID  `first` is above the mask of `counter`: nothing has changed
 *   as tkc_ntp_advance for the reading; while asleep, only TKC_INVALID
 *                nothing has changed, except at TKC_FULL
 *   TKC_FULL     the front is 2^63 - 1 or more: the seconds up to the reading have begun
 *   TKC_RANGE    as tkc_clock_change_counter: the seconds up to the reading have begun
 */
TKC_MUST_CHECK
enum tkc_code tkc_ntp_change_counter(struct tkc_ntp *ntp, uint64_t reading,
				     const struct tkc_counter *counter, uint64_t first);

/* What a tick changed: bits of *changed of tkc_ntp_tick. */
enum tkc_tick {
	/* A second of REALTIME has begun: also with each leap second. */
	TKC_TICK_SECOND = 1,
	/* A leap second has moved REALTIME. */
	TKC_TICK_LEAP = 2,
	/* The clocks have another rate. */
	TKC_TICK_RATE = 4
};

/*
 * Passes a tick (timekeeping_advance in kernel/time/timekeeping.c): tkc_ntp_advance_late at the
 * reading, then TKC_CMD_UPDATE there, then tkc_ntp_snapshot into *out. *changed becomes the sum of
 * the bits of enum tkc_tick that apply. If no second is due, which is so at most ticks, it takes
 * little more time than the update. The update adds 1 to the front.
 *
 * Returns, in this order, and writes neither *out nor *changed then:
 *   as tkc_ntp_advance_late
 *             nothing has changed, except at TKC_FULL
 *   TKC_FULL  the front is 2^63 - 3 or more before the update: the seconds up to the reading have
 *             begun
 */
TKC_MUST_CHECK
enum tkc_code tkc_ntp_tick(struct tkc_snapshot *out, uint32_t *changed, struct tkc_ntp *ntp,
			   uint64_t reading);

/*
 * Advances to the reading, does what a request asks for, and writes the reply into the same struct
 * (do_adjtimex, and __do_adjtimex in kernel/time/ntp.c; adjtimex(2)). *state becomes the number of
 * enum tkc_time_state that adjtimex(2) returns. Any struct may be passed: its fields are tested.
 *
 * A request adds up to 6 to the front: 1 for a step, up to 2 for the tick and the frequency after
 * it, 1 for another TAI offset, and up to 2 for the tick and the frequency that it leads to.
 *
 * Returns, in this order, and writes neither *timex nor *state then:
 *   TKC_INVALID  TKC_ADJ_ADJTIME without TKC_ADJ_OFFSET; or without TKC_ADJ_ADJTIME a tick out of
 *                its range; or a step or a frequency out of its range (enum tkc_adj)
 *   TKC_ASLEEP, TKC_INVALID, TKC_BEHIND or TKC_RANGE
 *                as tkc_ntp_advance
 *   TKC_FULL     the front is 2^63 - 3 or more where a second is due, or 2^63 - 6 or more after
 *                the seconds up to the reading have begun
 *   as tkc_clock_apply
 *                the clocks refuse the step of TKC_ADJ_SETOFFSET: they have only advanced
 *   TKC_RANGE    REALTIME, or TAI with the offset of TKC_ADJ_TAI, would be at or past its limit:
 *                the clocks have advanced, and made the step if there is one
 * In the first two cases nothing has changed.
 */
TKC_MUST_CHECK
enum tkc_code tkc_adjtimex(struct tkc_timex *timex, uint32_t *state, struct tkc_ntp *ntp,
			   uint64_t reading);

/*
 * Finds the reading at which the next second of REALTIME begins, to set a timer to. It searches the
 * readings that tkc_snapshot_reading searches. If REALTIME doesn't reach that second at any of
 * them, it returns TKC_FURTHER or TKC_NEVER, in the same cases as that call.
 */
TKC_MUST_CHECK
enum tkc_code tkc_ntp_next_second(uint64_t *out, const struct tkc_ntp *ntp);

/*
 * Finds the coming leap second of steered clocks (ntp_get_next_leap in kernel/time/ntp.c, which
 * finds only insertions). Returns what REALTIME moves by, in s: -1 if a second is inserted, 1 if
 * one is deleted, and 0 if no leap is coming. Unless it is 0, stores in *second the second of
 * REALTIME, since 1970, whose beginning is the leap: midnight at an insertion, and one second
 * before midnight at a deletion. tkc_snapshot_reading finds its reading.
 *
 * The clocks plan a leap as the first second begins after its status bit was set: until then the
 * result is 0. It is also 0 if the bit was cleared, or if a set, a step or a RESUME jumped over the
 * leap. Ask again after each call that the clocks accept. They refuse the leap itself if it would
 * put REALTIME below MONOTONIC.
 */
TKC_MUST_CHECK
int64_t tkc_ntp_leap(uint64_t *second, const struct tkc_ntp *ntp);

/* Return numbers of the discipline as replies contain them and as the last call left them: the bits
 * of the status (enum tkc_sta), the frequency in 2^-16 ppm, and the tick in us. No second begins.
 * The clocks may run at another rate, because of a phase or to make up for the lag. */
TKC_PURE uint32_t tkc_ntp_status(const struct tkc_ntp *ntp);
TKC_PURE int64_t tkc_ntp_frequency(const struct tkc_ntp *ntp);
TKC_PURE int64_t tkc_ntp_tick_length(const struct tkc_ntp *ntp);

/* Makes a snapshot of the steered clocks for readers, as tkc_clock_snapshot does. Use it for
 * readings up to the beginning of the next second, or the next call. */
TKC_NONNULL void tkc_ntp_snapshot(struct tkc_snapshot *out, const struct tkc_ntp *ntp);

/*
 * A signal of a pulse per second steers the clocks of a tkc_ntp, as hardpps() does in a kernel with
 * CONFIG_NTP_PPS. docs/NTP.md, "Pulse per second", says what a pulse does. The caller keeps a
 * tkc_pps next to the tkc_ntp, and makes these calls in addition:
 *   - at a pulse, tkc_ntp_pulse;
 *   - after each tkc_ntp_advance, tkc_ntp_advance_late and tkc_ntp_tick, tkc_pps_seconds with the
 *     number of seconds that have begun. Before any other call, advance to its reading, so that it
 *     begins no second;
 *   - after each request that tkc_adjtimex answers, tkc_pps_ask, and then tkc_pps_reply. A FREQ of
 *     tkc_ntp_apply is such a request, without a reply;
 *   - after each SET_TIME, STEP and LEAP that the clocks accept, tkc_pps_clear. This holds for a
 *     refused request too if its step was made (TKC_RANGE).
 */

/* Makes the state of a signal without a pulse (ntp_init in kernel/time/ntp.c). */
TKC_NONNULL void tkc_pps_open(struct tkc_pps *out);

/* Clears the state of a signal (pps_clear in kernel/time/ntp.c): an interval begins with the next
 * pulse, and the frequency is 0. The counts, the mean jitter and the mean change of the frequency
 * remain. */
TKC_NONNULL void tkc_pps_clear(struct tkc_pps *pps);

/*
 * Returns a number that grows by 1 as each second of REALTIME begins, also by a leap second: at an
 * insertion and at a deletion too. So the difference of two results is the number of seconds that
 * began in between. A set, a step, a LEAP and a RESUME may change it by 1 in either direction, and
 * begin no second.
 */
TKC_PURE int64_t tkc_ntp_seconds(const struct tkc_ntp *ntp);

/*
 * Counts `count` seconds of REALTIME that have begun (pps_dec_valid in kernel/time/ntp.c). If more
 * than 10 have begun since the last pulse, the signal is lost: its state is cleared as by
 * tkc_pps_clear, and the bits TKC_STA_PPSSIGNAL, TKC_STA_PPSJITTER, TKC_STA_PPSWANDER and
 * TKC_STA_PPSERROR of the status are turned off. Nothing else of *ntp changes. Its time doesn't
 * depend on `count`.
 */
TKC_NONNULL
void tkc_pps_seconds(struct tkc_pps *pps, struct tkc_ntp *ntp, uint64_t count);

/*
 * Lets the signal and the clocks take a pulse (hardpps, and __hardpps in kernel/time/ntp.c). The
 * pulse came `nsec` ns after a second of REALTIME began, 0 to 999999999, when MONOTONIC_RAW was
 * `raw` ns, 0 to 2^63 - 1. `reading` is one of now, not of the pulse. Each second of REALTIME up to
 * it begins first, as by tkc_ntp_advance, and then the discipline takes the pulse's frequency and
 * correction. A frequency may change the rate at the reading, which adds up to 2 to the front.
 *
 * Returns, in this order, and leaves *pps as it was:
 *   TKC_INVALID  nsec or raw is out of its range: nothing has changed
 *   as tkc_ntp_advance
 *                nothing has changed, except at TKC_FULL
 *   TKC_FULL     the front is 2^63 - 3 or more: the seconds up to the reading have begun
 */
TKC_MUST_CHECK
enum tkc_code tkc_ntp_pulse(struct tkc_ntp *ntp, struct tkc_pps *pps, uint64_t reading,
			    uint32_t nsec, uint64_t raw);

/*
 * Does what an answered request changes in the signal's state (process_adjtimex_modes in
 * kernel/time/ntp.c): a step clears it, a frequency becomes the signal's, and intervals are short
 * again if TKC_STA_PLL is turned off. `request` is a copy from before tkc_adjtimex, which writes
 * the reply into its struct, and `status` is tkc_ntp_status from before it.
 */
TKC_NONNULL
void tkc_pps_ask(struct tkc_pps *pps, const struct tkc_timex *request, uint32_t status);

/*
 * Writes the fields of the signal into a reply of tkc_adjtimex, ppsfreq to stbcnt without the
 * padding (pps_fill_timex in kernel/time/ntp.c). *state becomes TKC_TIME_ERROR if the status has
 * TKC_STA_PPSFREQ or TKC_STA_PPSTIME without TKC_STA_PPSSIGNAL, TKC_STA_PPSTIME with
 * TKC_STA_PPSJITTER, or TKC_STA_PPSFREQ with TKC_STA_PPSWANDER or TKC_STA_PPSERROR
 * (is_error_status). Otherwise it remains.
 */
TKC_NONNULL
void tkc_pps_reply(struct tkc_timex *timex, uint32_t *state, const struct tkc_pps *pps);

/*
 * Stores steered clocks with their counter as 33 64-bit words, from which tkc_ntp_load makes the
 * same steered clocks. A length is in 2^-32 ns, and S and F are the lengths of half a second and of
 * 500 us. Numbers that may be negative are stored as an int64_t.
 *   0 to 14   the words of tkc_clock_save for the clocks; word 0 is the front of the steered clocks
 *   15        hz: 1 to 1024
 *   16        the status: any 32 bits (enum tkc_sta)
 *   17        the state: TKC_TIME_OK to TKC_TIME_WAIT, 0 to 4
 *   18, 19    1, and the second of REALTIME whose beginning is the leap; or 0 and 0 if none is due
 *   20        the phase still to give in each of the hz parts of a second: a length from -(S / hz)
 *             to S / hz
 *   21        the time constant: 0 to 10
 *   22, 23    the greatest and the estimated error: 0 to 16000000 us
 *   24        the tick that was asked for: 9000 to 11000 us
 *   25        what each second gains by the frequency that was asked for: a length from -F to F
 *   26        the second of REALTIME of the last offset: below 2^63
 *   27        the rest of adjtime, in us: any number
 *   28        the phase of the present second, in each of its hz parts: a length up to
 *             S / hz + F / hz in either direction
 *   29, 30    what MONOTONIC lags behind, a length times 10^9 * 2^shift: word 29 * 2^64 + word 30
 *             - 2^124, up to 2^123 in either direction
 *   31        the second of REALTIME that begins next: 0 to 9223372037
 *   32        the reading up to which words 29 and 30 account for the cycles: any number
 * All divisions round down.
 */
TKC_NONNULL
void tkc_ntp_save(uint64_t words[TKC_NTP_SAVED_WORDS], const struct tkc_ntp *ntp);

/*
 * Makes the steered clocks that 33 words represent. The words may have any values. Returns
 * TKC_BAD_WORDS if tkc_clock_load refuses words 0 to 14, or if another word is out of the range
 * that tkc_ntp_save documents.
 *
 * If word 31 is long before REALTIME, the next call that lets seconds begin takes long: all seconds
 * from word 31 on begin, one after the other, and 86400 of them take about 10 ms. Test the word
 * before the call if the words come from a source that may be hostile.
 */
TKC_MUST_CHECK
enum tkc_code tkc_ntp_load(struct tkc_ntp *out, const uint64_t words[TKC_NTP_SAVED_WORDS]);

/* A parser that reads only declarations, such as cffi's, is given TKC_NO_INLINE. */
#ifndef TKC_NO_INLINE

/* Returns the name of a code, such as "TKC_BEHIND", or "TKC_?" if no code has the number. */
TKC_INLINE const char *tkc_code_name(uint32_t code)
{
	switch (code) {
	case TKC_OK: return "TKC_OK";
	case TKC_FULL: return "TKC_FULL";
	case TKC_ASLEEP: return "TKC_ASLEEP";
	case TKC_AWAKE: return "TKC_AWAKE";
	case TKC_INVALID: return "TKC_INVALID";
	case TKC_BEHIND: return "TKC_BEHIND";
	case TKC_RANGE: return "TKC_RANGE";
	case TKC_FURTHER: return "TKC_FURTHER";
	case TKC_NEVER: return "TKC_NEVER";
	case TKC_BAD_COMMAND: return "TKC_BAD_COMMAND";
	case TKC_BAD_CLOCK: return "TKC_BAD_CLOCK";
	case TKC_BAD_WORDS: return "TKC_BAD_WORDS";
	case TKC_BAD_ROOM: return "TKC_BAD_ROOM";
	case TKC_BAD_BITS: return "TKC_BAD_BITS";
	case TKC_BAD_SHIFT: return "TKC_BAD_SHIFT";
	case TKC_BAD_MULT: return "TKC_BAD_MULT";
	case TKC_BAD_ADJUST: return "TKC_BAD_ADJUST";
	case TKC_BAD_RATE: return "TKC_BAD_RATE";
	default: return "TKC_?";
	}
}

/* Stores a clock's time at a reading, as a number of nanoseconds, and returns 1, if the line reaches
 * that far. Otherwise it stores nothing and returns 0: tkc_snapshot_get has the answer then. */
TKC_INLINE int tkc_line_ns(uint64_t *out, const struct tkc_line *line, uint64_t reading)
{
	uint64_t cycles = (reading - line->last) & line->mask;

	if (cycles >= line->span || reading > line->mask)
		return 0;
	*out = line->sec * 1000000000u + ((line->frac + cycles * line->mult) >> line->shift);
	return 1;
}

/* Stores a clock's time at a reading as tkc_snapshot_get does, and returns 1, if the line reaches
 * that far. Otherwise it stores nothing and returns 0 (do_hres in lib/vdso/gettimeofday.c). */
TKC_INLINE int tkc_line_get(struct tkc_time *out, const struct tkc_line *line, uint64_t reading)
{
	uint64_t cycles = (reading - line->last) & line->mask;
	uint64_t sec = line->sec, nsec;

	if (cycles >= line->span || reading > line->mask)
		return 0;
	nsec = (line->frac + cycles * line->mult) >> line->shift;
	if (nsec >= 1000000000u) {
		sec += nsec / 1000000000u;
		nsec %= 1000000000u;
	}
	out->sec = (int64_t)sec;
	out->nsec = (uint32_t)nsec;
	out->padding = 0;
	return 1;
}

/* A function for each command, with only the arguments that the command uses. Each of them calls
 * tkc_clock_apply and returns its code. */

TKC_INLINE enum tkc_code tkc_clock_update(struct tkc_clock *clock, uint64_t reading)
{
	return tkc_clock_apply(clock, reading, TKC_CMD_UPDATE, 0, 0);
}

TKC_INLINE enum tkc_code tkc_clock_set_time(struct tkc_clock *clock, uint64_t reading, int64_t sec,
					    uint32_t nsec)
{
	return tkc_clock_apply(clock, reading, TKC_CMD_SET_TIME, sec, nsec);
}

TKC_INLINE enum tkc_code tkc_clock_step(struct tkc_clock *clock, uint64_t reading, int64_t sec,
					uint32_t nsec)
{
	return tkc_clock_apply(clock, reading, TKC_CMD_STEP, sec, nsec);
}

TKC_INLINE enum tkc_code tkc_clock_set_frequency(struct tkc_clock *clock, uint64_t reading,
						 int64_t frequency)
{
	return tkc_clock_apply(clock, reading, TKC_CMD_FREQ, frequency, 0);
}

TKC_INLINE enum tkc_code tkc_clock_set_tick(struct tkc_clock *clock, uint64_t reading, int64_t tick)
{
	return tkc_clock_apply(clock, reading, TKC_CMD_TICK, tick, 0);
}

TKC_INLINE enum tkc_code tkc_clock_set_tai_offset(struct tkc_clock *clock, uint64_t reading,
						  int64_t sec)
{
	return tkc_clock_apply(clock, reading, TKC_CMD_TAI_OFFSET, sec, 0);
}

/* Moves REALTIME by -1 s or 1 s, and sets the TAI offset to `tai` s. */
TKC_INLINE enum tkc_code tkc_clock_leap(struct tkc_clock *clock, uint64_t reading, int64_t by,
					uint32_t tai)
{
	return tkc_clock_apply(clock, reading, TKC_CMD_LEAP, by, tai);
}

TKC_INLINE enum tkc_code tkc_clock_suspend(struct tkc_clock *clock, uint64_t reading)
{
	return tkc_clock_apply(clock, reading, TKC_CMD_SUSPEND, 0, 0);
}

TKC_INLINE enum tkc_code tkc_clock_resume(struct tkc_clock *clock, uint64_t reading, int64_t sec,
					  uint32_t nsec)
{
	return tkc_clock_apply(clock, reading, TKC_CMD_RESUME, sec, nsec);
}

#endif /* TKC_NO_INLINE */

#ifdef __cplusplus
}
#endif

#endif /* TKC_H */
