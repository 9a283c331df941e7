/* SPDX-License-Identifier: MIT OR Apache-2.0 */
/*
 * shared.h - what the processes of a tkrun share: the two files of a machine's folder.
 *
 * `page` is a struct shared_page, with the counter and a page of tkcore_page.h; every user may read
 * it. `control` is a struct control, with the lock of those who command the clocks, the record's
 * state and the waiting threads; only its owner has it.
 */
#ifndef SHARED_H
#define SHARED_H

#include "address.h"

#include <pthread.h>
#include <stdatomic.h>
#include <stdbool.h>
#include <stdint.h>
#include <tkcore_page.h>

enum {
	MACHINE_LAYOUT = 0x746b7208,
	WAITERS_MOST = 32768,
};

#define NEVER UINT64_MAX

enum counter_kind { COUNTER_RAW, COUNTER_TSC, COUNTER_SLEEPS };

/* The reading at which the next second of REALTIME begins, if the counter gets
 * there. The discipline may change the rate then. `calls` is the number of calls that the
 * clocks had accepted. */
struct next_second {
	_Atomic uint64_t reading, is_known, calls;
};

/* The numbers of a tkc_line, for readers that can keep none. Its last word is the multiplier and
 * above it the shift. A line that was never stored has no span. */
enum { LINE_WORDS = 6, LINES = TKC_CLOCK_TAI + 1 };
struct shared_lines {
	_Atomic uint64_t of[LINES][LINE_WORDS]; /* by the clock's number */
};

enum { PEERS_MOST = 64 };

/* The addresses of a node with links, or none, and of the nodes to which it has a link, by their
 * numbers minus 1. With --stamps, a sink of each family drops the copies of datagrams that are sent
 * for their stamps. */
struct peers {
	uint32_t count;
	struct address own[FAMILIES], of[FAMILIES][PEERS_MOST];
	struct endpoint sinks[FAMILIES];
	bool binds_own;	 /* a socket that is bound to no address gets the node's */
	bool has_relays; /* a struct relays is there */
};

/*
 * If a node with links has an address of IPv6: its connections of IPv6, by the port of tkrun's end.
 * `cookie` is the kernel's number of the client's socket, which no other socket ever has, and
 * `server` is the server's node, shifted by 16 bits, and its port. `server` is written first.
 */
enum { RELAYS = 65536 };
struct relays {
	struct relay {
		_Atomic uint64_t cookie;
		_Atomic uint32_t server;
	} of[RELAYS];
};

/*
 * With --file-times: what the clocks' REALTIME was when the host's had a value, in ns, and between
 * two such moments it went on with the counter. One is written before `count` counts it. `stated`
 * contains times to which programs have set files, at places that they choose by themselves.
 */
enum { MOMENTS_MOST = 1 << 20, STATED_MOST = 1 << 16 };
struct file_times {
	_Atomic uint32_t count;
	struct moment {
		_Atomic int64_t host, real;
	} of[MOMENTS_MOST];
	_Atomic int64_t stated[STATED_MOST];
};

/*
 * What every process reads. A reading of the counter is
 * (first + ((host - base) * scale >> scale_shift)) & mask, where host is the
 * host's MONOTONIC_RAW in ns, or the TSC. With COUNTER_SLEEPS it is `cycles`.
 */
struct shared_page {
	uint32_t layout, kind; /* enum counter_kind */
	uint64_t base, scale, mask, first;
	uint32_t scale_shift;
	bool denies_set, has_stamps, has_file_times;
	bool has_filter; /* tkrun answers system calls, and counts the programs */
	bool calls_host; /* the vDSO can't read the host's clocks */
	double nanos_per_cycle; /* of the host */
	double speed;		/* ns of the counter in a ns of the host */
	uint64_t update_nanos;	/* the span between two updates */
	uint32_t node;		/* the number of the node: 0 for the program's clocks */
	uint64_t read_cost;	/* the cycles by which a read moves a counter of sleeps */

	_Alignas(64) struct tkc_page page;
	struct next_second seconds[2]; /* of the page's copies */
	struct shared_lines lines[2];
	/* at the end of the day 1 s is inserted, or deleted (-1), or none (0) */
	_Atomic int32_t leap;
	_Alignas(64) _Atomic uint64_t cycles;
	_Alignas(64) _Atomic uint32_t generation; /* who isn't listed looks again */
	struct peers peers;
	/* one with --file-times, or none; a struct relays follows, if the node has one */
	_Alignas(64) struct file_times file_times[];
};

static inline struct relays *shared_relays(struct shared_page *shared)
{
	return (struct relays *)(shared->file_times + shared->has_file_times);
}

/* The signal by which tkrun ends a wait for something that isn't only a time. */
#define WAKE_SIGNAL 63

/* Whether a waiter's thread lets WAKE_SIGNAL end its wait. */
enum { SIGNAL_NOT, SIGNAL_LET, SIGNAL_SENT };

/*
 * An entry of a thread that waits for a time of a clock. The low half of `owner`
 * is the thread, or minus the thread until the time is written, or 0 if the entry
 * is free. The high half counts the waits that have had the entry, so no two of
 * them have the same owner. A sleeper looks again when `changes` moves on. The
 * high half of `signal` is the owner's, and the low half is one of SIGNAL_NOT,
 * SIGNAL_LET and SIGNAL_SENT: tkrun sends one signal, and then none until the
 * thread has got it. `home` is the number plus 1 of the entry whose `changes` the
 * thread waits for, or 0 if it waits for this one's.
 */
struct waiter {
	_Atomic uint64_t owner;
	uint32_t clock, nsec;
	int64_t sec;
	_Atomic uint32_t changes;
	_Atomic int32_t process; /* of a thread that lets a signal end its wait */
	_Atomic uint64_t signal;
	_Atomic uint64_t slice_end; /* the host's ns until which it waits without it */
	_Atomic uint32_t slices;    /* how often it has begun to wait so */
	uint32_t home;
	atomic_bool is_alone; /* a follower is the last thread of its process */
};

/* The entry of a wait, or NULL if it isn't listed, and by which owner it is this
 * wait's. After a fork, the tickets of a child are its parent's. */
struct ticket {
	struct waiter *waiter;
	uint64_t owner;
	uint32_t forks;
};

/* Waits that go by the host's time, of which tkrun warns. */
enum host_wait {
	HOST_UNLISTED, /* with COUNTER_SLEEPS: there was no waiter left */
	HOST_SEMAPHORES,
	HOST_SOCKET,
	HOST_MESSAGES,
	HOST_FUTEX,
	HOST_ASYNCHRONOUS,
	HOST_FILES, /* there is no place for a moment of --file-times */
	HOST_VDSO, /* its functions may be read, though they aren't waits */
	HOST_WAITS,
};

/* The state of the record, for rows.c. */
struct rows {
	_Atomic uint64_t count; /* rows that were asked for */
	_Atomic uint64_t room;	/* rows that the file has blocks for */
	_Atomic uint64_t lost;	/* rows that couldn't be written */
	_Atomic uint32_t wanted;
	atomic_bool is_full; /* no room will be made */
	uint64_t every;	     /* 0: no record */
	uint64_t looks_every; /* the same, or 1 if each read has a cost or is counted */
	_Atomic uint64_t reads; /* that were to be recorded */
	uint64_t reads_most;
	bool has_readers;    /* a row says who made each read */
	atomic_bool is_steered; /* a call or a script has asked the discipline */
	char path[4096];
};

/* The log, for log.c. It ends before the first line that can't be written. */
struct log {
	_Atomic uint64_t written, lost; /* lines */
	_Atomic int32_t error; /* why the first lost line was, or 0 */
	char path[4064];       /* of --log, or none */
	char node[32];	       /* the first word of each line: the node, or none */
};

/* The latest moves of a counter of sleeps, with --stamps: the host's REALTIME after each, and the
 * clocks' MONOTONIC since then, in ns. One is written before `count` counts it. */
enum { MOVES_MOST = 4096 };
struct moves {
	_Atomic uint64_t count;
	struct move {
		_Atomic uint64_t host, nanos;
	} of[MOVES_MOST];
};

/* Steps of REALTIME, in the order of the reads after which they come: of all threads, in the order
 * in which they are counted. */
enum { READ_STEPS_MOST = 16 };
struct read_steps {
	_Atomic uint64_t reads; /* that were counted, if there is a step */
	_Atomic uint32_t made;	/* steps; only who has the lock changes it */
	uint32_t count;
	struct read_step {
		uint64_t reads;
		int64_t sec;
		uint32_t nsec;
	} of[READ_STEPS_MOST];
};

/* Clocks, and the number of calls that they accepted. Their front is the number of commands: a call
 * makes none, one or several. */
struct called {
	struct tkc_ntp ntp;
	uint64_t calls;
};

struct control {
	_Alignas(64) pthread_mutex_t lock;
	struct called clocks[2];
	_Atomic uint32_t present; /* which of them are the clocks */
	_Atomic int32_t zone[2]; /* the time zone of settimeofday */
	_Atomic uint64_t accepted, refused, reads, recovered;
	_Atomic uint32_t attached;
	_Atomic uint32_t host_waits;	/* a bit for each enum host_wait */
	_Atomic uint32_t waiters_count; /* entries that were ever taken */
	uint64_t pid_space; /* the PID namespace of tkrun: waiters_space */
	int32_t tkrun;	    /* its number there */
	_Alignas(64) struct rows rows;
	_Alignas(64) struct log log;
	struct moves moves;
	_Alignas(64) struct read_steps read_steps;
	struct waiter waiters[WAITERS_MOST];
};

#endif
