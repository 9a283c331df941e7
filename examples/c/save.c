/* SPDX-License-Identifier: MIT OR Apache-2.0 */
/* Saves running clocks to a file and loads them again. The file has a line for each of the 15 words
 * of tkc_clock_save, the numbers of the counter among them. The file is replaced by a rename, so a
 * crash leaves the former one or the new one. Any contents lead to sound clocks or an error.
 *
 *     save FILE
 */
#define _POSIX_C_SOURCE 200809L
#include <inttypes.h>
#include <stdio.h>
#include <string.h>
#include <tkcore.h>
#include <unistd.h>

static int print(FILE *file, const struct tkc_clock *clock)
{
	uint64_t words[TKC_SAVED_WORDS];

	tkc_clock_save(words, clock);
	for (int k = 0; k < TKC_SAVED_WORDS; k++)
		fprintf(file, "%" PRIu64 "\n", words[k]);
	return ferror(file);
}

/* Returns 0, or -1 if the file isn't written: then the former one is as it was. */
static int save(const char *name, const struct tkc_clock *clock)
{
	char beside[4096];
	FILE *file;
	int failed;

	if ((size_t)snprintf(beside, sizeof(beside), "%s.new", name) >= sizeof(beside))
		return -1;
	file = fopen(beside, "w");
	if (!file)
		return -1;
	failed = print(file, clock) || fflush(file) || fsync(fileno(file));
	failed |= fclose(file);
	if (failed || rename(beside, name)) {
		remove(beside);
		return -1;
	}
	return 0;
}

/* Returns TKC_OK, or TKC_BAD_WORDS if the file hasn't the words of any clocks. */
static enum tkc_code load(const char *name, struct tkc_clock *clock)
{
	uint64_t words[TKC_SAVED_WORDS];
	FILE *file = fopen(name, "r");
	int count = 0;

	if (!file)
		return TKC_BAD_WORDS;
	for (int k = 0; k < TKC_SAVED_WORDS; k++)
		count += fscanf(file, "%" SCNu64, &words[k]) == 1;
	fclose(file);
	return count == TKC_SAVED_WORDS ? tkc_clock_load(clock, words) : TKC_BAD_WORDS;
}

int main(int argc, char **argv)
{
	struct tkc_counter counter;
	struct tkc_clock clock, loaded;
	struct tkc_snapshot snapshot;
	struct tkc_time time;

	if (argc != 2) {
		fprintf(stderr, "usage: save FILE\n");
		return 2;
	}
	if (tkc_counter_from_hz(&counter, 32, 1000000, 600) ||
	    tkc_clock_open(&clock, &counter, 0, 1700000000, 0) ||
	    tkc_clock_set_frequency(&clock, 1000000, 3276800) ||
	    tkc_clock_suspend(&clock, 3000001))
		return 1;
	if (save(argv[1], &clock)) {
		perror(argv[1]);
		return 1;
	}
	if (load(argv[1], &loaded) || memcmp(&clock, &loaded, sizeof(clock)))
		return 1;
	/* the machine was off for an hour, and its counter started at 0 again */
	if (tkc_clock_resume(&loaded, 0, 3600, 0))
		return 1;
	tkc_clock_snapshot(&snapshot, &loaded);
	if (tkc_snapshot_get(&time, &snapshot, TKC_CLOCK_BOOTTIME, 1000000))
		return 1;
	printf("BOOTTIME a second after the resume: %lld.%09u\n", (long long)time.sec, time.nsec);
	return 0;
}
