/* SPDX-License-Identifier: MIT OR Apache-2.0 */
/*
 * Answers the records of its input (ntp_records.h), each by a line, with the 33
 * words of the steered clocks after them. The next record is about the clocks that
 * these words represent. compare_ntp.py runs it.
 */
#include "check.h"
#include "ntp_records.h"

#include <inttypes.h>
#include <stdbool.h>
#include <stdio.h>
#include <stdlib.h>
#include <string.h>

/* Prints the words of steered clocks, and loads them. */
static void print_words(struct tkc_ntp *ntp)
{
	uint64_t words[TKC_NTP_SAVED_WORDS], again[TKC_NTP_SAVED_WORDS];

	tkc_ntp_save(words, ntp);
	for (int i = 0; i < TKC_NTP_SAVED_WORDS; i++)
		printf(",%" PRIu64, words[i]);
	putchar('\n');
	memset(ntp, 7, sizeof(*ntp));
	check(!tkc_ntp_load(ntp, words));
	tkc_ntp_save(again, ntp);
	check(!memcmp(again, words, sizeof(words)));
}

/* Moves the state of a signal to other memory and back: its bytes are all that it is. */
static void move_signal(struct tkc_pps *pps)
{
	struct tkc_pps moved = *pps;

	memset(pps, 7, sizeof(*pps));
	*pps = moved;
}

int main(void)
{
	static struct session session;
	char record[LINE_SIZE], line[LINE_SIZE];
	bool is_open = false;

	while (fgets(record, sizeof(record), stdin)) {
		record[strcspn(record, "\n")] = '\0';
		answer(&session, record, line);
		is_open = is_open || !strcmp(line, "open");
		move_signal(&session.pps);
		fputs(line, stdout);
		if (is_open)
			print_words(&session.ntp);
		else
			putchar('\n');
	}
	return EXIT_SUCCESS;
}
