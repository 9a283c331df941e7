/* SPDX-License-Identifier: MIT OR Apache-2.0 */
/* ended COUNT: prints its number, waits for the end of its input, reads MONOTONIC COUNT times, and
 * ends. */
#include <stdio.h>
#include <stdlib.h>
#include <time.h>
#include <unistd.h>

int main(int count, char **words)
{
	struct timespec now;

	printf("%d\n", getpid());
	fflush(stdout);
	while (getchar() != EOF)
		;
	for (int i = count > 1 ? atoi(words[1]) : 0; i > 0; i--)
		clock_gettime(CLOCK_MONOTONIC, &now);
	return 0;
}
