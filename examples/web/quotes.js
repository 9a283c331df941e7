/* SPDX-License-Identifier: MIT OR Apache-2.0 */
/*
 * quotes.js - removes the quotes of fields that need none, because a session takes no quotes. The
 * crate csv, with which tkcore reads scripts, reads the same fields without these quotes.
 */
const QUOTE = 34, COMMA = 44;

/**
 * Returns where the quote is that closes a quoted field, which starts at `from`, or 0 if the field
 * needs its quotes: it contains a comma or another quote, or has no end.
 */
function closingOf(bytes, from, end) {
    let at = from + 1;
    while (at < end && bytes[at] !== QUOTE && bytes[at] !== COMMA)
        at++;
    const isClosed = at < end && bytes[at] === QUOTE;
    return isClosed && (at + 1 === end || bytes[at + 1] === COMMA) ? at : 0;
}

/**
 * Copies a record to `to` without the quotes of fields that need none. Returns the copy's end, or
 * `first` if the record needs quotes: another quote would stay, or it would be an empty line.
 */
function copyRecord(bytes, { start, end }, to, first) {
    let next = first;
    for (let at = start; at < end; at++) {
        const isFirst = at === start || bytes[at - 1] === COMMA; // of its field
        const closing = isFirst && bytes[at] === QUOTE ? closingOf(bytes, at, end) : 0;
        if (closing) {
            to.set(bytes.subarray(at + 1, closing), next);
            next += closing - at - 1;
            at = closing;
        } else if (bytes[at] === QUOTE)
            return first;
        else
            to[next++] = bytes[at];
    }
    return next;
}

/**
 * Returns a script's bytes without the quotes of fields that need none, and where its records are
 * in them. A record that needs quotes stays as it is.
 */
export function withoutQuotes(bytes, records) {
    if (!bytes.includes(QUOTE))
        return { bytes, records };
    const made = new Uint8Array(bytes.length);
    let next = 0;
    const moved = records.map(record => {
        const start = next;
        next = copyRecord(bytes, record, made, start);
        if (next === start) {
            made.set(bytes.subarray(record.start, record.end), start);
            next += record.end - record.start;
        }
        return { start, end: next, line: record.line };
    });
    return { bytes: made.subarray(0, next), records: moved };
}
