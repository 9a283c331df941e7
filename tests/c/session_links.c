/* SPDX-License-Identifier: MIT OR Apache-2.0 */
/* Links only the archive of sessions, and carries out a record. */
#include <stdlib.h>
#include <string.h>
#include <tkcore_session.h>

int main(void)
{
	static const char record[] = "open,32,16777216,24,0,0,0";
	struct tkc_session session = tkc_session_begin();
	struct tkc_text text;

	if (tkc_session_record(&session, &text, record, strlen(record)) ||
	    tkc_session_records(&session) != 1)
		return EXIT_FAILURE;
	return EXIT_SUCCESS;
}
