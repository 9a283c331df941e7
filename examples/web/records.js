/* SPDX-License-Identifier: MIT OR Apache-2.0 */
/* records.js - cuts a script of tkcore into its records. docs/TKCORE.md describes them. */
const SCRIPT_MOST = 16777216; // bytes
const LF = 10, CR = 13;

/** The first fault of a script, with tkcore's text. */
export class Fault extends Error {}

/**
 * Returns the records of a script in which no field contains a line end: the bytes at which each of
 * them starts and ends, and its line, from 0. A line ends with LF, CRLF or CR. Empty lines are no
 * records.
 */
export function recordsOf(bytes) {
    if (bytes.length > SCRIPT_MOST)
        throw new Fault(`larger than ${SCRIPT_MOST} bytes`);
    const isMarked = bytes[0] === 0xef && bytes[1] === 0xbb && bytes[2] === 0xbf;
    const records = [];
    let line = 0, start = isMarked ? 3 : 0; // after a byte order mark
    for (let end = start; end <= bytes.length; end++) {
        if (end < bytes.length && bytes[end] !== LF && bytes[end] !== CR)
            continue;
        if (end > start)
            records.push({ start, end, line });
        line += Number(bytes[end] === LF);
        start = end + 1;
    }
    if (!records.length)
        throw new Fault('no record');
    return records;
}
