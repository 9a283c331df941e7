/* SPDX-License-Identifier: MIT OR Apache-2.0 */
/* report.js - makes the report of a script with its session: the lines that tkcore writes. */
import { withoutQuotes } from './quotes.js';
import { recordsOf } from './records.js';
import { Session } from './session.js';

export function timeText({ sec, nsec }) {
    return `${sec}.${String(nsec).padStart(9, '0')}`;
}

export function utcText({ sec, nsec }) {
    const text = new Date(Number(sec) * 1000).toISOString().slice(0, 19);
    return `${text}.${String(nsec).padStart(9, '0')}Z`;
}

/** A script, and its session. A record with quotes that its fields need isn't a plain line. */
export class Script {
    /** Throws the fault of a script that is too large or has no record. */
    constructor(module, bytes) {
        const plain = withoutQuotes(bytes, recordsOf(bytes));
        this.bytes = plain.bytes;
        this.records = plain.records;
        this.session = new Session(module, plain.bytes);
    }

    /**
     * Carries out all records. Returns the lines of each of them, or throws the first fault. Clocks
     * may follow the session.
     */
    run(clocks = null) {
        return this.records.map((record, i) => {
            const lines = this.session.carryOut(i + 1, record);
            if (i === 0)
                clocks?.open();
            else
                clocks?.follow(this.session.rowOf(i + 1, record), lines);
            return lines;
        });
    }
}
