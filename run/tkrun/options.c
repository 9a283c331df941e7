/* SPDX-License-Identifier: MIT OR Apache-2.0 */
/* options.c - parses the arguments of tkrun. */
#define _GNU_SOURCE
#include "options.h"

#include <errno.h>
#include <getopt.h>
#include <math.h>
#include <stdarg.h>
#include <stdio.h>
#include <stdlib.h>
#include <string.h>
#include <sys/stat.h>

enum { READS_MOST = 10000000 }; /* in a record: 26 scripts */

static const char *node_name;

void fail_within(const char *name)
{
	node_name = name;
}

void fail(int status, const char *form, ...)
{
	va_list list;

	fputs("tkrun: ", stderr);
	if (node_name)
		fprintf(stderr, "--node %s: ", node_name);
	va_start(list, form);
	vfprintf(stderr, form, list);
	va_end(list);
	fputc('\n', stderr);
	exit(status);
}

uint64_t whole(const char *option, const char *text, uint64_t least,
		      uint64_t most)
{
	unsigned long long value;
	char *end = NULL;

	errno = 0;
	value = strtoull(text, &end, 10);
	if (*text < '0' || *text > '9' || *end || errno || value < least ||
	    value > most)
		fail(STATUS_WRONG,
		     "--%s: '%s' isn't a number from %llu to %llu", option,
		     text, (unsigned long long)least, (unsigned long long)most);
	return value;
}

double decimal(const char *option, const char *text, double least,
		      double most)
{
	char *end = NULL;
	double value = strtod(text, &end);

	if (end == text || *end || !(value >= least && value <= most))
		fail(STATUS_WRONG, "--%s: '%s' isn't a number from %g to %g",
		     option, text, least, most);
	return value;
}

const char *parse_nsec(const char *text, uint32_t *nsec)
{
	uint32_t digit = NANOS;

	*nsec = 0;
	if (*text != '.' || text[1] < '0' || text[1] > '9')
		return text;
	while (*++text >= '0' && *text <= '9' && digit > 1) {
		digit /= 10;
		*nsec += digit * (uint32_t)(*text - '0');
	}
	return text;
}

void parse_start(struct options *options, const char *text)
{
	struct tm date = { 0 };
	const char *rest = strptime(text, "%Y-%m-%dT%H:%M:%S", &date);
	char *end = NULL;

	if (rest) {
		options->start_sec = timegm(&date);
		rest = parse_nsec(rest, &options->start_nsec);
		rest = *rest == 'Z' ? rest + 1 : "?";
	} else {
		errno = 0;
		options->start_sec = strtoll(text, &end, 10);
		rest = parse_nsec(end, &options->start_nsec);
		if (errno || *text < '0' || *text > '9')
			rest = "?";
	}
	/* a time that SET_TIME accepts */
	if (*rest || options->start_sec < 0 || options->start_sec > 8277292035)
		fail(STATUS_WRONG,
		     "--start: '%s' isn't SEC[.NSEC] or YYYY-MM-DDThh:mm:ss[.NSEC]Z, from 1970 to 2232",
		     text);
	options->has_start = true;
}

static void parse_uptime(struct options *options, const char *text)
{
	char *end = NULL;

	errno = 0;
	options->uptime_sec = strtoll(text, &end, 10);
	if (errno || *text < '0' || *text > '9' ||
	    *parse_nsec(end, &options->uptime_nsec) ||
	    options->uptime_sec > UPTIME_MOST)
		fail(STATUS_WRONG, "--uptime: '%s' isn't SEC[.NSEC] up to %d s",
		     text, UPTIME_MOST);
}

static enum counter_kind parse_counter(const char *text)
{
	static const char *const WORDS[] = { "raw", "tsc", "sleeps" };

	for (int i = 0; i < 3; i++) {
		if (!strcmp(text, WORDS[i]))
			return (enum counter_kind)i;
	}
	fail(STATUS_WRONG, "--counter: '%s' isn't raw, tsc or sleeps", text);
}

static void set_flag(struct options *o, const char *name)
{
	o->is_checked |= !strcmp(name, "check");
	o->has_readers |= !strcmp(name, "readers");
	o->denies_set |= !strcmp(name, "deny-set");
	o->has_stamps |= !strcmp(name, "stamps");
	o->has_file_times |= !strcmp(name, "file-times");
	o->is_static |= !strcmp(name, "static");
	o->is_lax |= !strcmp(name, "lax");
	o->is_quiet |= !strcmp(name, "quiet");
}

/* Parses an option of nodes. Returns false if it is another one. */
static bool parse_nodes_option(struct options *o, const char *name, const char *value)
{
	if (!strcmp(name, "plan"))
		o->plan = value;
	else if (!strcmp(name, "node"))
		add_node(o, value);
	else if (!strcmp(name, "link"))
		add_link(o, value);
	else if (!strcmp(name, "address"))
		parse_address(o, value);
	else if (!strcmp(name, "bind") && !strcmp(value, "own"))
		o->binds_own = true;
	else if (!strcmp(name, "bind"))
		fail(STATUS_WRONG, "bind '%s' isn't own", value);
	else
		return false;
	return true;
}

void parse_option(struct options *o, const char *name, const char *value)
{
	if (!strcmp(name, "counter"))
		o->counter = parse_counter(value);
	else if (!strcmp(name, "hz"))
		o->hz = whole(name, value, 1, UINT32_MAX);
	else if (!strcmp(name, "bits"))
		o->bits = (uint32_t)whole(name, value, 8, 64);
	else if (!strcmp(name, "maxsec"))
		o->maxsec = (uint32_t)whole(name, value, 1, 600);
	else if (!strcmp(name, "error-ppm"))
		o->error_ppm = decimal(name, value, -500000, 1000000);
	else if (!strcmp(name, "speed"))
		o->speed = decimal(name, value, 0.000001, 100000);
	else if (!strcmp(name, "start"))
		parse_start_words(o, value);
	else if (!strcmp(name, "ahead"))
		o->ahead = decimal(name, value, -1e9, 1e9);
	else if (!strcmp(name, "uptime"))
		parse_uptime(o, value);
	else if (!strcmp(name, "script"))
		o->script = value;
	else if (!strcmp(name, "record"))
		o->record = value;
	else if (!strcmp(name, "every"))
		o->every = whole(name, value, 1, INT64_MAX);
	else if (!strcmp(name, "reads"))
		o->reads_most = whole(name, value, 0, INT64_MAX);
	else if (!strcmp(name, "log"))
		o->log = value;
	else if (!strcmp(name, "read-cost"))
		o->read_cost = whole(name, value, 0, NANOS);
	else if (!strcmp(name, "step-after-reads"))
		parse_read_step(o, value);
	else if (!parse_nodes_option(o, name, value) && !parse_node_option(o, name, value))
		set_flag(o, name);
	o->has_ahead |= !strcmp(name, "ahead");
	o->has_uptime |= !strcmp(name, "uptime");
	o->limits_reads |= !strcmp(name, "reads");
	o->describes_counter |= !strcmp(name, "hz") || !strcmp(name, "bits") ||
				!strcmp(name, "maxsec");
}

/* Returns whether two options name the same file, also if it isn't there yet. */
static bool is_same_file(const char *one, const char *other)
{
	struct stat a, b;

	if (!one || !other)
		return false;
	return !strcmp(one, other) ||
	       (!stat(one, &a) && !stat(other, &b) && a.st_dev == b.st_dev &&
		a.st_ino == b.st_ino);
}

void compare_options(const struct options *o)
{
	if ((o->has_start || o->has_lead) && o->has_ahead)
		fail(STATUS_WRONG, "--start and --ahead exclude each other");
	if (o->script && (o->has_start || o->has_lead || o->has_ahead || o->has_uptime))
		fail(STATUS_WRONG,
		     "--script opens the clocks, so --start, --ahead and --uptime can't");
	if (is_same_file(o->record, o->log) ||
	    is_same_file(o->record, o->script) ||
	    is_same_file(o->log, o->script))
		fail(STATUS_WRONG,
		     "--script, --record and --log need different files");
	if ((o->every != 1 || o->limits_reads) && !o->record && !o->is_checked)
		fail(STATUS_WRONG, "--%s needs --record or --check",
		     o->limits_reads ? "reads" : "every");
	if (o->has_readers && !o->record)
		fail(STATUS_WRONG, "--readers needs --record");
	if (o->read_cost && o->counter != COUNTER_SLEEPS)
		fail(STATUS_WRONG, "--read-cost needs --counter sleeps");
	if (o->has_seed && !o->name && o->counter != COUNTER_SLEEPS)
		fail(STATUS_WRONG, "--seed needs --counter sleeps");
	if (o->plan && !o->node_count && !o->name)
		fail(STATUS_WRONG, "--plan needs --node");
	if (o->counter == COUNTER_SLEEPS && !o->name &&
	    (o->speed != 1 || o->error_ppm != 0))
		fail(STATUS_WRONG,
		     "--counter sleeps has no speed and no error: the host's time doesn't move it");
}

void parse_options(int count, char **words, struct options *options)
{
	static const struct option LIST[] = {
		{ "counter", 1, 0, 0 },	  { "hz", 1, 0, 0 },
		{ "bits", 1, 0, 0 },	  { "maxsec", 1, 0, 0 },
		{ "error-ppm", 1, 0, 0 }, { "speed", 1, 0, 0 },
		{ "start", 1, 0, 0 },	  { "ahead", 1, 0, 0 },
		{ "uptime", 1, 0, 0 },	  { "script", 1, 0, 0 },
		{ "record", 1, 0, 0 },	  { "every", 1, 0, 0 },
		{ "check", 0, 0, 0 },	  { "deny-set", 0, 0, 0 },
		{ "stamps", 0, 0, 0 },	  { "log", 1, 0, 0 },
		{ "static", 0, 0, 0 },	  { "quiet", 0, 0, 0 },
		{ "lax", 0, 0, 0 },	  { "node", 1, 0, 0 },
		{ "plan", 1, 0, 0 },	  { "help", 0, 0, 'h' },
		{ "version", 0, 0, 'v' }, { "reads", 1, 0, 0 },
		{ "readers", 0, 0, 0 },
		{ "read-cost", 1, 0, 0 },
		{ "step-after-reads", 1, 0, 0 },
		{ "link", 1, 0, 0 },
		{ "seed", 1, 0, 0 },	  { "file-times", 0, 0, 0 },
		{ 0, 0, 0, 0 },
	};
	int letter, index;

	*options = (struct options){
		.bits = 64, .maxsec = 1, .speed = 1, .every = 1,
		.reads_most = READS_MOST
	};
	while ((letter = getopt_long(count, words, "+h", LIST, &index)) >= 0) {
		if (letter == 'h')
			print_usage();
		if (letter == 'v')
			printf("tkrun %d.%d.%d\n", TKC_VERSION_MAJOR,
			       TKC_VERSION_MINOR, TKC_VERSION_PATCH);
		if (letter == 'h' || letter == 'v')
			exit(0);
		if (letter)
			exit(STATUS_WRONG); /* getopt_long has said why */
		parse_option(options, LIST[index].name, optarg);
	}
	if (optind == count)
		fail(STATUS_WRONG,
		     "no program: tkrun [OPTIONS] -- PROGRAM ARGS..");
	compare_options(options);
	parse_nodes(options);
	parse_links(options);
	options->program = words + optind;
}
