/* SPDX-License-Identifier: MIT OR Apache-2.0 */
/*
 * reads.js - what the reads of a script show, which a record of tkrun has in the order of their
 * readings: their number, the longest time without a read, and where a clock went back.
 */
import { NANOS } from './library.js';
import { timeText } from './report.js';

export function spanText(nanos) {
    return `${timeText({ sec: nanos / NANOS, nsec: nanos % NANOS })} s`;
}

/** Where a clock went back: below its greatest value since it went back last. */
export class Falls {
    constructor() {
        this.greatest = null;
        this.first = 0; // the record at which it went back first
        this.count = 0;
        this.most = { span: 0n };
    }

    /** Adds a read. Reads of several threads may have another order than their readings, so the
     * place of the greatest value counts too. */
    add(row, place, nanos) {
        const former = this.greatest;
        const isBack = former && nanos < former.nanos && place >= former.place;
        if (isBack)
            this.fall(row, former.nanos - nanos);
        if (!former || isBack || nanos > former.nanos)
            this.greatest = { nanos, place };
    }

    fall(row, span) {
        this.first ||= row;
        this.count++;
        if (span > this.most.span)
            this.most = { span, row };
    }

    text() {
        return `${this.count === 1 ? 'once,' : `${this.count} times, at most`} by ${
            spanText(this.most.span)} at record ${this.most.row}`;
    }
}

/** Returns the value of a key, which is made if it isn't there. */
export function valueOrNew(map, key, make) {
    if (!map.has(key))
        map.set(key, make());
    return map.get(key);
}

/** Returns the keys whose clock went back, with their Falls, in the order of the first time. */
export function fallen(map) {
    return [...map].filter(([, falls]) => falls.count).sort(([, a], [, b]) => a.first - b.first);
}

export class Reads {
    constructor() {
        this.counts = new Map(); // of each clock
        this.falls = new Map(); // of each clock
        this.last = null; // the greatest place of a read
        this.pause = { span: 0n, row: 0 };
    }

    /** Adds a read of a record: its place, or null if it has none, and its value in ns, or null. */
    add(clock, row, place, nanos) {
        this.counts.set(clock, (this.counts.get(clock) ?? 0) + 1);
        if (place === null)
            return;
        const span = place - (this.last ?? place);
        if (span > this.pause.span)
            this.pause = { span, row };
        if (this.last === null || span > 0n)
            this.last = place;
        if (nanos !== null)
            valueOrNew(this.falls, clock, () => new Falls()).add(row, place, nanos);
    }

    /** Returns lines in words, or none if there is no read. */
    lines() {
        if (!this.counts.size)
            return [];
        const counts = [...this.counts].map(([clock, count]) => `${count} of ${clock}`);
        const pause = this.pause.row ? [`longest time without a read: ${
            spanText(this.pause.span)}, before record ${this.pause.row}`] : [];
        return [`reads: ${counts.join(', ')}`, ...pause,
            ...fallen(this.falls).map(([clock, falls]) => `${clock} went back ${falls.text()}`)];
    }
}
