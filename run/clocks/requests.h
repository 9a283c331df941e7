/* SPDX-License-Identifier: MIT OR Apache-2.0 */
/* requests.h - what a request of adjtimex asks for. */
#ifndef REQUESTS_H
#define REQUESTS_H

#include <stdbool.h>
#include <sys/timex.h>

struct asked_words;

/* Returns whether a request asks only for the reply. */
bool request_only_reads(const struct timex *request);

/* Returns whether a request is refused before its rights are tested. */
bool request_is_faulty(const struct timex *request);

/* Returns a request with 0 in each field that its modes don't select. */
struct timex request_selected(const struct timex *request);

/* Returns the words of a request in a record, without a reply. */
struct asked_words request_words(const struct timex *request);

#endif
