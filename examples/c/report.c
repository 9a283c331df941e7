/* SPDX-License-Identifier: MIT OR Apache-2.0 */
/*
 * Prints the report of the tkcore script on standard input, as `tkcore` does. A session carries out
 * one line after the other, and makes their lines of the report. It refuses a line with a quote,
 * which `tkcore` reads too.
 */
#include <tkcore_session.h>

#include <stdbool.h>
#include <stdio.h>
#include <stdlib.h>

enum { SCRIPT_LIMIT = 16777216, STATUS_DIFFERS = 3 };

static int fail(const char *text)
{
	fprintf(stderr, "tkcore: %s\n", text);
	return EXIT_FAILURE;
}

static bool ends_line(char byte)
{
	return byte == '\n' || byte == '\r';
}

/* Carries out a script, and writes its report to `file` unless it is NULL. Returns false at the
 * first fault, whose text is then in `text`. */
static bool carry_out(struct tkc_session *session, struct tkc_text *text, const char *script,
		      size_t length, FILE *file)
{
	const char *end = script + length;

	*session = tkc_session_begin();
	for (const char *line = script, *next; line < end; line = next + 1) {
		for (next = line; next < end && !ends_line(*next);)
			next++;
		if (tkc_session_record(session, text, line, (size_t)(next - line)))
			return false;
		if (file)
			fwrite(text->bytes, 1, text->length, file);
	}
	return true;
}

/* Prints the report of a script without a fault: a script with one has no report, so it is carried
 * out once before its lines are printed. Returns the status of `tkcore`. */
static int report(const char *script, size_t length)
{
	struct tkc_session session;
	struct tkc_text text;

	if (length > SCRIPT_LIMIT)
		return fail("script: larger than 16777216 bytes");
	if (!carry_out(&session, &text, script, length, NULL)) {
		fprintf(stderr, "tkcore: script: %.*s\n", (int)text.length,
			(const char *)text.bytes);
		return EXIT_FAILURE;
	}
	if (!tkc_session_records(&session))
		return fail("script: no record");
	carry_out(&session, &text, script, length, stdout);
	if (fflush(stdout) || ferror(stdout))
		return fail("cannot write");
	return tkc_session_differences(&session) ? STATUS_DIFFERS : EXIT_SUCCESS;
}

int main(void)
{
	/* One byte more than the limit shows that a script is too large. */
	char *script = malloc(SCRIPT_LIMIT + 1);
	size_t length;
	int status;

	if (!script)
		return fail("out of memory");
	length = fread(script, 1, SCRIPT_LIMIT + 1, stdin);
	status = ferror(stdin) ? fail("cannot read") : report(script, length);
	free(script);
	return status;
}
