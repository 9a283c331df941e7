/* SPDX-License-Identifier: MIT OR Apache-2.0 */
/* places.c - reads the file RECORD.nodes, which paces.c has written. */
#define _GNU_SOURCE
#include "merge.h"

#include <errno.h>
#include <stdio.h>
#include <stdlib.h>
#include <string.h>

enum { FIELDS = 5, SHIFT_MOST = 126 };

/* Returns whether a field names the program's clocks, the true time or a node. */
static bool is_name(const char *name)
{
	return !*name || !strcmp(name, TRUE_NAME) || is_node_name(name);
}

/* Returns the place with a name, which is added if it is new, or NULL if there are too many. */
static struct place *find_place(struct places *places, const char *name)
{
	struct place *place = places->nodes;

	if (!strcmp(name, TRUE_NAME))
		return &places->truth;
	while (place < places->nodes + places->count && strcmp(place->name, name))
		place++;
	if (place == places->nodes + 1 + NODES_MOST)
		return NULL;
	if (place == places->nodes + places->count) {
		strcpy(place->name, name);
		places->count++;
	}
	return place;
}

/* Stores the number of a field. Returns false if it isn't one up to `most`. */
static bool parse_number(const char *field, uint64_t most, uint64_t *number)
{
	char *end;

	errno = 0;
	*number = strtoull(field, &end, 10);
	return *field >= '0' && *field <= '9' && !*end && !errno && *number <= most;
}

static bool parse_placed(char *const *fields, struct placed *placed)
{
	uint64_t shift = 0;
	bool is_placed = parse_number(fields[1], UINT64_MAX, &placed->pace.since) &&
			 parse_number(fields[2], UINT64_MAX, &placed->reading) &&
			 parse_number(fields[3], UINT64_MAX, &placed->pace.scale) &&
			 placed->pace.scale && parse_number(fields[4], SHIFT_MOST, &shift);

	placed->pace.shift = (uint32_t)shift;
	return is_placed;
}

/* Cuts a line at its commas. Returns the number of its fields, of which it stores the first. */
static size_t cut(char *line, char *fields[FIELDS])
{
	size_t count = 0;

	for (char *field; (field = strsep(&line, ",")); count++)
		if (count < FIELDS)
			fields[count] = field;
	return count;
}

/* Adds a line. Returns a fault, or NULL. */
static const char *add_placed(struct places *places, char *line)
{
	struct placed placed = { 0 }, *larger;
	char *fields[FIELDS];
	struct place *place;

	if (cut(line, fields) != FIELDS)
		return "wrong number of fields";
	if (!is_name(fields[0]))
		return "not a name";
	if (!parse_placed(fields, &placed))
		return "not a number in range";
	place = find_place(places, fields[0]);
	if (!place)
		return "too many nodes";
	if (place->count ? placed.pace.since < place->paces[place->count - 1].pace.since
			 : placed.pace.since > 0)
		return "the common counter isn't at 0 first, or goes back";
	larger = reallocarray(place->paces, place->count + 1, sizeof(*larger));
	if (!larger)
		return "out of memory";
	place->paces = larger;
	place->paces[place->count++] = placed;
	return NULL;
}

/* Adds the lines of a file that aren't empty. Returns a fault, or NULL, and the number of the last
 * of them. */
static const char *add_places(struct places *places, FILE *file, size_t *number)
{
	const char *wrong = NULL;
	char *line = NULL;
	size_t size = 0;

	*number = 0;
	while (!wrong && getline(&line, &size, file) >= 0) {
		line[strcspn(line, "\n")] = 0;
		if (*line) {
			++*number;
			wrong = add_placed(places, line);
		}
	}
	free(line);
	return wrong;
}

void places_read(struct places *places, const char *record)
{
	const char *wrong = NULL;
	size_t number;
	char *path;
	FILE *file;

	if (asprintf(&path, "%s.nodes", record) < 0)
		fail(STATUS_FAILED, "out of memory");
	file = fopen(path, "re");
	if (file)
		wrong = add_places(places, file, &number);
	if (!file || ferror(file))
		fail(STATUS_WRONG, "merge: cannot read '%s': %s", path, strerror(errno));
	if (wrong)
		fail(STATUS_WRONG, "merge: '%s': record %zu: %s", path, number, wrong);
	if (!places->truth.count || !places->count || *places->nodes->name)
		fail(STATUS_WRONG,
		     "merge: '%s' doesn't place the true time and the program's clocks", path);
	fclose(file);
	free(path);
}
