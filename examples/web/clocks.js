/* SPDX-License-Identifier: MIT OR Apache-2.0 */
/*
 * clocks.js - the clocks of a session in the library, record by record, to draw them.
 *
 * Several seconds of steered clocks may begin in one record, each with its rate. The session has
 * one snapshot after them, so the library lets them begin again, one by one.
 */
import { BYTES } from './library.js';

/** Places in the words of tkc_ntp_save: the coming second, and the last account. */
const NEXT = 31, MARK = 32;
const FRONT_END = 1n << 63n;

/** Calls a watcher with the snapshots around each change, and with reads and refusals. */
export class Clocks {
    constructor(library, session, watcher) {
        this.library = library;
        this.calls = library.calls;
        this.session = session;
        this.watcher = watcher;
        this.counter = library.reserve(BYTES.counter);
        this.snapshot = library.reserve(BYTES.snapshot);
        this.before = library.reserve(BYTES.snapshot);
        this.after = library.reserve(BYTES.snapshot); // a record
        this.begun = library.reserve(BYTES.snapshot); // a second
        this.ntp = library.reserve(BYTES.ntp); // the clocks, if they are steered
        this.trial = library.reserve(BYTES.ntp);
    }

    /** Shows the clocks after the first record. */
    open() {
        this.library.bytes(this.snapshot, BYTES.snapshot).set(this.session.snapshotBytes());
        this.calls.tkc_snapshot_counter(this.counter, this.snapshot);
        this.load();
        this.watcher.opened(this.snapshot);
    }

    /** Shows what the session has done at a later record. Its lines are these. */
    follow({ number, word, reading, first, clock, value }, lines) {
        this.watcher.atRecord(number);
        this.library.bytes(this.after, BYTES.snapshot).set(this.session.snapshotBytes());
        this.begin(reading, this.library.frontOf(this.after));
        if (word === 'get')
            this.watcher.read(clock, this.after, reading,
                this.library.nanos(this.after, clock, reading), value);
        else if (lines.startsWith('no,'))
            this.watcher.refused(word, this.after, reading);
        else
            this.take(word, this.after, reading, first);
        this.load();
    }

    /** Takes a snapshot from after a command at a reading, which is `first` for a new counter. */
    take(word, snapshot, reading, first = reading) {
        [this.before, this.snapshot] = [this.snapshot, this.before];
        this.library.copy(this.snapshot, snapshot, BYTES.snapshot);
        this.watcher.changed(word, this.before, reading, this.snapshot, first);
    }

    /** Loads the clocks of the session, if they are steered. */
    load() {
        const words = this.session.steeredWords();
        this.isSteered = words !== null;
        if (!this.isSteered)
            return;
        this.library.bytes(this.library.words, BYTES.words).set(words);
        if (this.calls.tkc_ntp_load(this.ntp, this.library.words))
            throw new Error('the words of steered clocks are refused');
    }

    /** Returns one of the words of the steered clocks. */
    word(place) {
        this.calls.tkc_ntp_save(this.library.words, this.ntp);
        return this.library.word(this.library.words, place);
    }

    /** Lets the seconds up to a reading begin, until the clocks have this front. */
    begin(reading, front) {
        const number = () => this.library.frontOf(this.snapshot);
        while (number() < front) {
            const at = this.due(reading);
            // only the last account of an `openwords` can be after the beginning of the next second
            if (at === null || this.advance(at) && this.advance(this.word(MARK)))
                return;
            this.calls.tkc_ntp_snapshot(this.begun, this.ntp);
            if (this.library.frontOf(this.begun) > number())
                this.take('second', this.begun, this.library.lastOf(this.begun));
        }
    }

    advance(reading) {
        return this.calls.tkc_ntp_advance(this.ntp, reading);
    }

    /** Returns the reading at which the next second begins, or null if it is after `reading`. */
    due(reading) {
        if (!this.isSteered || this.calls.tkc_ntp_next_second(this.library.out, this.ntp))
            return null;
        const at = this.library.word(this.library.out);
        const last = this.library.lastOf(this.snapshot), gap = to =>
            BigInt.asUintN(64, this.calls.tkc_counter_gap(this.counter, last, to));
        return gap(at) <= gap(reading) ? at : null;
    }

    /** Lets the seconds up to a reading begin, as a read there does. */
    look(reading) {
        this.library.copy(this.trial, this.ntp, BYTES.ntp);
        if (this.isSteered && !this.calls.tkc_ntp_advance(this.trial, reading))
            this.begin(reading, FRONT_END);
    }

    /** Returns the number of seconds that begin up to a reading, at the rate in force. */
    secondsUntil(reading) {
        if (!this.isSteered)
            return 0n;
        const real = this.library.get(this.snapshot, 'realtime', reading);
        return real.code ? 1n : real.sec - this.word(NEXT) + 1n;
    }
}
