/* SPDX-License-Identifier: MIT OR Apache-2.0 */
/* What worked_ntp.c, worked_late_ntp.c and worked_pulses.c share. */
#ifndef WORKED_NTP_H
#define WORKED_NTP_H

#include "ntp_records.h"
#include "worked_rows.h"

/* A record of ntp_records.h, and its answer. */
struct ntp_row {
	const char *record, *answer;
};

/* Passes the record to the session of worked_ntp.c, and checks the answer. */
void try_ntp_row(const struct ntp_row *row);
void try_late_ntp(void);
void try_pulses(void);

#endif
