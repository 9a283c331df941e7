/* SPDX-License-Identifier: GPL-2.0 */

/* Returns the status bits of the discipline. */
extern int timekeeping_ntp_status(void);
