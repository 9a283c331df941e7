/* SPDX-License-Identifier: MIT OR Apache-2.0 */
/* Reads each clock by the C library's own function, which it gets by dlopen and dlsym, and by that
 * of a hidden name. Prints what is wrong. */
#define _GNU_SOURCE
#include "gettimes.h"

#include <dlfcn.h>

int main(void)
{
	void *library = dlopen("libc.so.6", RTLD_NOW);
	gettime *read = library ? (gettime *)dlsym(library, "clock_gettime") : NULL;
	gettime *hidden = (gettime *)dlsym(RTLD_DEFAULT, "__clock_gettime");

	CHECK(read);
	if (read)
		check_clocks(read);
	CHECK(hidden);
	if (hidden)
		check_clocks(hidden);
	return faults > 0;
}
