/* SPDX-License-Identifier: MIT OR Apache-2.0 */
/*
 * curves.js - what the page draws of a script: each clock minus the ideal line.
 *
 * The ideal line is MONOTONIC_RAW plus all sleeps, so it advances at the described rate of the
 * counter. All values are reads of the library. Between two changes a clock is a straight line, so
 * a change has two points: the clocks by the snapshot before it and by the one after it.
 */
import { BYTES, CLOCKS } from './library.js';
import { Reads } from './reads.js';

export const DRAWN = ['monotonic', 'boottime', 'realtime', 'tai'];

const CHANGES_MOST = 8192, READS_MOST = 5000, MARKS_MOST = 2000;
const JUMP = 1000; // ns
const MARGIN_MOST = 10n ** 11n; // ns
/** More seconds than begin in this margin. Words may have a second that was due years ago. */
export const SECONDS_MOST = 200n;

/** The words of changes that leave each clock as it was, unless a leap second is among them. */
const QUIET = new Set(['update', 'second']);

export class Curves {
    constructor(library) {
        this.library = library;
        this.slot = library.reserve(BYTES.snapshot);
        this.row = 1;
        this.end = 0n; // the greatest place that was reached
        this.changes = [];
        this.reads = []; // that are drawn
        this.allReads = new Reads();
        this.readers = null; // or who made each of them
        this.marks = [];
        this.stride = 1; // of the quiet changes that are kept
        this.quiet = 0;
    }

    /** Names the record that the following calls are for. */
    atRecord(row) {
        this.row = row;
    }

    opened(snapshot) {
        const reading = this.library.lastOf(snapshot);
        this.origin = 0n;
        this.origin = this.placeOf(snapshot, reading);
        const real = this.library.nanos(snapshot, 'realtime', reading);
        this.starts = { realtime: real, tai: real,
            monotonic: this.library.nanos(snapshot, 'monotonic', reading),
            boottime: this.library.nanos(snapshot, 'boottime', reading) };
        this.add('open', null, this.pointAt(snapshot, reading), snapshot, reading);
    }

    /** Returns where a reading is on the ideal line, in ns since the opening. */
    placeOf(snapshot, reading) {
        const read = clock => this.library.nanos(snapshot, clock, reading);
        const raw = read('monotonic_raw'), boot = read('boottime'), mono = read('monotonic');
        return raw === null || boot === null || mono === null ? null
            : raw + boot - mono - this.origin;
    }

    /** Returns a place, and what each clock is ahead of the ideal line there, in ns. */
    pointAt(snapshot, reading, place = this.placeOf(snapshot, reading)) {
        return { place, ahead: DRAWN.map(clock => this.aheadOf(clock, place,
            this.library.nanos(snapshot, clock, reading))) };
    }

    aheadOf(clock, place, nanos) {
        return place === null || nanos === null ? NaN : Number(nanos - this.starts[clock] - place);
    }

    /** Keeps a change: `from` is its reading by the snapshot before it, `to` by the next one. */
    changed(word, before, from, after, to) {
        if (word === 'update' && this.quiet++ % this.stride !== 0)
            return;
        const there = this.pointAt(after, to);
        const place = this.library.isAsleep(before) ? there.place : this.placeOf(before, from);
        const here = this.pointAt(before, from, place);
        const isJump = there.ahead.some((ahead, i) => Math.abs(ahead - here.ahead[i]) > JUMP);
        if (word !== 'second' || isJump || this.quiet++ % this.stride === 0)
            this.add(word, here, there, after, to, !isJump && QUIET.has(word));
        if (!QUIET.has(word) || isJump)
            this.mark(isJump && word === 'second' ? 'leap' : word, there.place, false);
    }

    add(word, here, there, snapshot, reading, isQuiet = false) {
        const row = word === 'second' ? this.row - 1 : this.row;
        this.reach(there.place);
        this.changes.push({ here, there, row, reading, isQuiet,
            isAsleep: this.library.isAsleep(snapshot),
            snapshot: this.library.bytes(snapshot, BYTES.snapshot).slice() });
        if (this.changes.length > CHANGES_MOST)
            this.thin();
    }

    /** Drops every other quiet change, or every other one if few are quiet. */
    thin() {
        const isKept = (change, i) => i === 0 || i % 2 === 1;
        this.stride *= 2;
        const kept = this.changes.filter((change, i) => !change.isQuiet || isKept(change, i));
        this.changes = kept.length > CHANGES_MOST / 2 ? this.changes.filter(isKept) : kept;
    }

    reach(place) {
        if (place !== null && place > this.end)
            this.end = place;
    }

    mark(word, place, isRefused) {
        if (place !== null && this.marks.length < MARKS_MOST)
            this.marks.push({ word, row: this.row, place: Number(place), isRefused });
    }

    refused(word, snapshot, reading) {
        this.mark(word, this.placeOf(snapshot, reading) ?? this.end, true);
    }

    /** Keeps a read: its value in ns, or null if it was refused, and the value that it states. */
    read(clock, snapshot, reading, nanos, stated) {
        const place = this.placeOf(snapshot, reading), base = clock.replace('_coarse', '');
        const isDifferent = stated !== undefined && stated !== nanos;
        this.allReads.add(clock, this.row, place, stated ?? nanos);
        this.readers?.add({ clock, row: this.row, reading, place, nanos: stated ?? nanos });
        this.reach(place);
        if (nanos === null)
            this.mark('get', place ?? this.end, true);
        else if (DRAWN.includes(base) && (isDifferent || this.reads.length < READS_MOST))
            this.reads.push({ clock: base, isCoarse: base !== clock, isDifferent, row: this.row,
                place: Number(place), ahead: this.aheadOf(base, place, nanos) });
    }

    /** Returns what the reads show, in words. */
    readLines() {
        return [...this.allReads.lines(), ...this.readers?.lines() ?? []];
    }

    /** Ends the last line a little after the last record, and returns all that is drawn. */
    finish(clocks) {
        const part = this.end / 24n, margin = part < MARGIN_MOST ? part : MARGIN_MOST;
        const last = this.changes.at(-1), wanted = this.readingAt(last, this.end + margin + 1n);
        this.row++;
        if (wanted !== null && !last.isAsleep && clocks.secondsUntil(wanted) <= SECONDS_MOST)
            clocks.look(wanted);
        this.tail = this.tailOf(clocks, wanted ?? this.library.lastOf(clocks.snapshot));
        this.reach(this.tail.place);
        return { changes: this.changes.map(({ here, there, isAsleep }) => ({
            here: here && this.plain(here), there: this.plain(there), isAsleep })),
        tail: this.plain(this.tail), reads: this.reads, marks: this.marks,
        end: Number(this.end) || 1 };
    }

    /** Returns the last point, by the clocks after the last record. */
    tailOf(clocks, reading) {
        const point = this.pointAt(clocks.snapshot, reading);
        return point.place !== null && point.place >= this.end || !this.changes.at(-1).isAsleep
            ? point : this.pointAt(clocks.snapshot, reading, this.end);
    }

    plain({ place, ahead }) {
        return { place: Number(place), ahead };
    }

    snapshotOf(change) {
        this.library.bytes(this.slot, BYTES.snapshot).set(change.snapshot);
        return this.slot;
    }

    /** Returns the reading at a place after a change, or null if it is too far. */
    readingAt(change, place) {
        const snapshot = this.snapshotOf(change);
        const raw = this.library.nanos(snapshot, 'monotonic_raw', change.reading);
        return this.library.readingOf(snapshot, 'monotonic_raw',
            raw + place - (change.there.place ?? place));
    }

    /** Returns the last change at a place or before it. */
    changeAt(place) {
        const next = this.changes.findIndex(change => change.there.place > place);
        return this.changes.at(next === -1 ? -1 : next - 1);
    }

    /** Reads all clocks at the first reading at a place or after it, as they are since a change. */
    readAll(asked) {
        let change = this.changeAt(asked), place = asked;
        if (this.stride > 1 && change.isQuiet)
            place = change.there.place; // (changes that were dropped may follow)
        let reading = change.isAsleep ? change.reading : this.readingAt(change, place);
        if (reading === null)
            return { row: change.row, reading, times: [] };
        if (!change.isAsleep)
            place = this.placeOf(this.snapshotOf(change), reading) ?? place;
        const later = this.changeAt(place);
        if (later !== change) // within the last cycle before it
            [change, place, reading] = [later, later.there.place, later.reading];
        const snapshot = this.snapshotOf(change);
        return { row: change.row, since: change.reading, reading, isAsleep: change.isAsleep,
            place: Number(place),
            times: [...CLOCKS.keys()].map(clock => this.timeOf(clock, snapshot, reading, place)) };
    }

    timeOf(clock, snapshot, reading, place) {
        const { code, sec, nsec } = this.library.get(snapshot, clock, reading);
        const nanos = code ? null : sec * 10n ** 9n + BigInt(nsec);
        return { clock, code, sec, nsec,
            ahead: DRAWN.includes(clock) ? this.aheadOf(clock, place, nanos) : NaN };
    }
}
