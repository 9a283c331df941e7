/* SPDX-License-Identifier: MIT OR Apache-2.0 */
/* session.js - the calls of tkcore_session.h that the page makes, in the module of the session. */
import { BYTES, CLOCKS, COMMANDS, Module } from './library.js';
import { Fault } from './records.js';

/** The bytes at which struct tkc_row has its fields, and its kinds. */
const ROW = { reading: 0, value: 16, first: 24, kind: 32, command: 36, clock: 44, hasValue: 48 };
const COMMAND = 0, READ = 1, COUNTER = 2;
const WORDS = ['', 'get', 'counter', 'adjtimex']; // by the kind

const CLOCK_NAMES = new Map([...CLOCKS].map(([name, number]) => [number, name]));
const STEERED_WORDS = 33; // of tkc_session_save, if a discipline steers the clocks
const ROOM = 65536; // bytes for all but the script
const ASCII = new TextDecoder();

/** The session of a script, whose bytes it contains. */
export class Session extends Module {
    constructor(module, script) {
        super(module, ROOM + script.length);
        this.session = this.reserve(BYTES.session);
        this.text = this.reserve(BYTES.text);
        this.row = this.reserve(BYTES.row);
        this.words = this.reserve(BYTES.words);
        this.snapshot = this.reserve(BYTES.snapshot);
        this.script = this.reserve(script.length);
        this.bytes(this.script, script.length).set(script);
        this.calls.tkc_session_begin(this.session);
    }

    /** Carries out a record. Returns its lines without the last line feed, or throws its fault. */
    carryOut(number, { start, end }) {
        const code = this.calls.tkc_session_record(this.session, this.text,
            this.script + BigInt(start), BigInt(end - start));
        const at = Number(this.text), length = this.view.getUint32(at, true);
        const text = ASCII.decode(new Uint8Array(this.memory, at + 8, length));
        if (code)
            throw new Fault(text.startsWith('record') ? text : `record ${number}: ${text}`);
        return text.slice(0, -1);
    }

    /** Returns a record after the opening, which the session has carried out. */
    rowOf(number, { start, end }) {
        if (this.calls.tkc_row_parse(this.row, BigInt(number), this.script + BigInt(start),
            BigInt(end - start)))
            throw new Error(`the session has carried out record ${number}, which is none`);
        const at = Number(this.row), uint32 = place => this.view.getUint32(at + place, true);
        const uint64 = place => this.view.getBigUint64(at + place, true);
        const kind = uint32(ROW.kind), reading = uint64(ROW.reading);
        return { number, word: kind === COMMAND ? COMMANDS[uint32(ROW.command)] : WORDS[kind],
            reading, first: kind === COUNTER ? uint64(ROW.first) : reading,
            clock: kind === READ ? CLOCK_NAMES.get(uint32(ROW.clock)) : undefined,
            value: uint32(ROW.hasValue) ? uint64(ROW.value) : undefined };
    }

    /** Returns the number of reads that differ from the values that their records state. */
    differences() {
        return Number(this.calls.tkc_session_differences(this.session));
    }

    /** Returns the bytes of a snapshot of the clocks. */
    snapshotBytes() {
        this.calls.tkc_session_snapshot(this.snapshot, this.session);
        return this.bytes(this.snapshot, BYTES.snapshot);
    }

    /** Returns the bytes of the words of tkc_ntp_save, or null if the clocks aren't steered. */
    steeredWords() {
        return this.calls.tkc_session_save(this.words, this.session) === STEERED_WORDS
            ? this.bytes(this.words, BYTES.words) : null;
    }
}
