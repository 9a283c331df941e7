/* SPDX-License-Identifier: MIT OR Apache-2.0 */
/* library.js - the calls of tkcore.h that the page makes, in the module of the proved library. */

/** The numbers of the clocks by their words in a script, and the commands' words by number. */
export const CLOCKS = new Map([
    ['realtime', 0], ['monotonic', 1], ['boottime', 7], ['tai', 11], ['realtime_coarse', 5],
    ['monotonic_coarse', 6], ['monotonic_raw', 4]]);
export const COMMANDS = ['update', 'set', 'step', 'freq', 'tick', 'tai', 'suspend', 'resume'];
/** The words of the refusals by their codes. */
export const REFUSALS = ['', 'full', 'asleep', 'awake', 'invalid', 'behind', 'range'];

/** The bytes of the structs of tkcore.h and tkcore_session.h, and of the words of tkc_ntp_save. */
export const BYTES = { counter: 12, snapshot: 88, time: 16, ntp: 224, words: 264, session: 264,
    text: 296, row: 272 };
export const NANOS = 1000000000n;

const PAGE = 65536; // bytes of memory

/** Adds pages to a memory. One of 64 bits takes their number as a BigInt. */
function grow(memory, pages) {
    try {
        memory.grow(pages);
    } catch (error) {
        if (!(error instanceof TypeError))
            throw error;
        memory.grow(BigInt(pages));
    }
}

/**
 * The memory and calls of a module. Pointers and 64-bit integers are BigInts, also in the modules
 * for browsers without 64-bit memories, the same code after `wasm-opt --memory64-lowering`.
 */
export class Module {
    /** Makes an instance with room for some kB, and for this many bytes more. */
    constructor(module, more = 0) {
        this.calls = new WebAssembly.Instance(module, {}).exports;
        if (more)
            grow(this.calls.memory, Math.ceil(more / PAGE));
        this.memory = this.calls.memory.buffer;
        this.view = new DataView(this.memory);
        this.next = Number(this.calls.__heap_base.value) + 15 & ~15;
    }

    /** Returns the address of memory that is never released. */
    reserve(bytes) {
        const at = this.next;
        this.next += bytes + 15 & ~15;
        if (this.next > this.memory.byteLength)
            throw new Error('no memory is left');
        return BigInt(at);
    }

    bytes(pointer, count) {
        return new Uint8Array(this.memory, Number(pointer), count);
    }

    word(pointer, place = 0) {
        return this.view.getBigUint64(Number(pointer) + 8 * place, true);
    }
}

/** The module of tkcore.h. */
export class Library extends Module {
    constructor(module) {
        super(module);
        this.time = this.reserve(BYTES.time);
        this.words = this.reserve(BYTES.words);
        this.out = this.reserve(8);
    }

    copy(to, from, count) {
        this.bytes(to, count).set(this.bytes(from, count));
    }

    /** Reads a clock (tkc_snapshot_get). Returns its time, or the refusal's code. */
    get(snapshot, clock, reading) {
        const code = this.calls.tkc_snapshot_get(this.time, snapshot, CLOCKS.get(clock), reading);
        const at = Number(this.time);
        return code ? { code } : {
            code, sec: this.view.getBigInt64(at, true), nsec: this.view.getUint32(at + 8, true),
        };
    }

    /** Reads a clock in ns, or null if it is at its end. */
    nanos(snapshot, clock, reading) {
        const { code, sec, nsec } = this.get(snapshot, clock, reading);
        return code ? null : sec * NANOS + BigInt(nsec);
    }

    /** Returns the first reading at which a clock has reached this time in ns, or null. */
    readingOf(snapshot, clock, nanos) {
        const code = this.calls.tkc_snapshot_reading(this.out, snapshot, CLOCKS.get(clock),
            nanos / NANOS, Number(nanos % NANOS));
        return code ? null : this.word(this.out);
    }

    /** Returns the reading of the last command. */
    lastOf(snapshot) {
        this.calls.tkc_snapshot_words(this.words, snapshot);
        return this.word(this.words, 1);
    }

    /** Returns the number of commands that were accepted. */
    frontOf(snapshot) {
        return this.calls.tkc_snapshot_front(snapshot);
    }

    isAsleep(snapshot) {
        return this.calls.tkc_snapshot_asleep(snapshot) === 1;
    }
}
