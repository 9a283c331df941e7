// SPDX-License-Identifier: GPL-2.0
/*
 * A time that no request changes: MONOTONIC_RAW at another rate. It is served by NTP on 127.0.0.1, so
 * that a client in the guest can follow it in virtual time, or compared with REALTIME.
 *
 *     reference PPB                       serves NTP; the time gains PPB ns in a second
 *     reference PPB SECONDS..             prints REALTIME minus the time after each of these seconds,
 *                                         and how far apart they are in the next 60 s at most. It
 *                                         ends with status 1 if the last is more than 100 us
 */
#include <arpa/inet.h>
#include <stdint.h>
#include <stdio.h>
#include <stdlib.h>
#include <string.h>
#include <sys/socket.h>
#include <time.h>
#include <unistd.h>

#define NANOS 1000000000LL
#define START (1795910400 * NANOS + 300000000)	/* 2026-11-29 00:00:00.3, when MONOTONIC_RAW is 0 */
#define SINCE_1900 2208988800U
#define APART_NS 100000

static long long ppb;

static long long read_clock(clockid_t clock)
{
	struct timespec time;

	clock_gettime(clock, &time);
	return time.tv_sec * NANOS + time.tv_nsec;
}

static long long reference(void)
{
	long long raw = read_clock(CLOCK_MONOTONIC_RAW);

	return START + raw + (long long)((__int128)raw * ppb / NANOS);
}

/* Stores a time as a timestamp of NTP. */
static void store(unsigned char *to, long long time)
{
	uint32_t sec = htonl(time / NANOS + SINCE_1900);
	uint32_t part = htonl(((uint64_t)(time % NANOS) << 32) / NANOS);

	memcpy(to, &sec, 4);
	memcpy(to + 4, &part, 4);
}

/* Answers requests of NTP as a server of stratum 1. */
static int serve(void)
{
	struct sockaddr_in at = { .sin_family = AF_INET, .sin_port = htons(123),
				  .sin_addr.s_addr = htonl(INADDR_LOOPBACK) };
	int own = socket(AF_INET, SOCK_DGRAM, 0);

	if (bind(own, (struct sockaddr *)&at, sizeof(at)))
		return 1;
	for (;;) {
		unsigned char packet[48], request[512];
		struct sockaddr_in from;
		socklen_t size = sizeof(from);
		ssize_t got = recvfrom(own, request, sizeof(request), 0, (void *)&from, &size);
		long long received = reference();

		if (got < 48)
			continue;
		memset(packet, 0, sizeof(packet));
		packet[0] = 4 << 3 | 4;		/* version 4, a server */
		packet[1] = 1;
		packet[2] = request[2];
		packet[3] = (unsigned char)-20;	/* the precision: a microsecond */
		memcpy(packet + 12, "RAW", 3);
		store(packet + 16, received);
		memcpy(packet + 24, request + 40, 8);
		store(packet + 32, received);
		store(packet + 40, reference());
		sendto(own, packet, sizeof(packet), 0, (void *)&from, size);
	}
}

/* Returns REALTIME minus the time, between two reads of it. */
static long long difference(void)
{
	long long before = reference(), real = read_clock(CLOCK_REALTIME);

	return real - before - (reference() - before) / 2;
}

/* Prints the difference at a second since the start, and the most of it in the next minute, which it
 * returns. */
static long long print_at(long sec)
{
	long long most = 0, first, now = read_clock(CLOCK_MONOTONIC_RAW) / NANOS;

	if (now < sec)
		sleep(sec - now);
	first = difference();
	for (int i = 0; i < 60; i++) {
		long long now = llabs(difference());

		most = now > most ? now : most;
		sleep(1);
	}
	printf("reference: at %ld s: %lld ns, in the next minute up to %lld ns\n", sec, first, most);
	fflush(stdout);
	return most;
}

int main(int count, char **words)
{
	long long most = 0;

	if (count < 2)
		return 2;
	ppb = atoll(words[1]);
	if (count == 2)
		return serve();
	for (int i = 2; i < count; i++)
		most = print_at(atol(words[i]));
	return most > APART_NS;
}
