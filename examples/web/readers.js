/* SPDX-License-Identifier: MIT OR Apache-2.0 */
/*
 * readers.js - who made each read of a script: from the file that `tkrun --readers` writes next to
 * it. docs/RUN.md describes the file.
 */
import { Fault } from './records.js';
import { Falls, fallen, valueOrNew } from './reads.js';

const LINE = /^(\d+),(\d+),(\d+),(\d+),([a-z_]+|\?),([^,]*)$/;
const SHOWN_MOST = 20; // programs of a clock, and processes for which it went back

/** Returns the reader of a line, which must be that of a read. */
function readerOf(line, number, { row, reading }) {
    const match = LINE.exec(line);
    if (!match)
        throw new Fault(`line ${number} isn't RECORD,READING,PROCESS,THREAD,CALL,PROGRAM`);
    if (Number(match[1]) !== row || BigInt(match[2]) !== reading)
        throw new Fault(`line ${number} isn't that of record ${row}`);
    const [process, thread, call, program] = match.slice(3);
    return { process, thread, call, program };
}

/** Returns the reader of each read. */
function readersOf(text, reads) {
    const lines = text.split('\n');
    if (lines.pop() !== '')
        throw new Fault('the last line has no end');
    if (lines.length > reads.length)
        throw new Fault(`line ${reads.length + 1} is that of no read`);
    if (lines.length < reads.length)
        throw new Fault(`record ${reads[lines.length].row} has no line`);
    return lines.map((line, i) => readerOf(line, i + 1, reads[i]));
}

function countText(set, word) {
    return set.size === 1 ? `${word} ${[...set][0]}` : `${set.size} ${word === 'process'
        ? 'processes' : 'threads'}`;
}

/** The reads of one clock by the processes of one program. */
class Program {
    constructor() {
        this.count = 0;
        this.processes = new Set();
        this.threads = new Set();
        this.calls = new Map();
    }

    add({ process, thread, call }) {
        this.count++;
        this.processes.add(process);
        this.threads.add(thread);
        this.calls.set(call, (this.calls.get(call) ?? 0) + 1);
    }

    /** Returns who read how often. Threads are named if there are more of them than processes. */
    text() {
        const threads = this.threads.size > this.processes.size
            ? `, ${countText(this.threads, 'thread')}` : '';
        const calls = [...this.calls].map(([call, count]) => `${count} by ${call}`).join(', ');
        return `${countText(this.processes, 'process')}${threads}: ${calls}`;
    }
}

/** The programs that made the reads of a script, if the text of its readers fits. */
export class Readers {
    constructor(text) {
        this.text = text;
        this.reads = []; // of the script
        this.clocks = new Map(); // the Program of each name, for each clock
        this.falls = new Map(); // of each clock and process
    }

    /** Adds a read: its clock, record, reading and place, and its value in ns, or null. */
    add(read) {
        this.reads.push(read);
    }

    /** Adds a read to those of its reader. */
    assign({ clock, row, place, nanos }, reader) {
        const programs = valueOrNew(this.clocks, clock, () => new Map());
        valueOrNew(programs, reader.program, () => new Program()).add(reader);
        const who = `${clock} went back for ${reader.program}, process ${reader.process},`;
        if (place !== null && nanos !== null)
            valueOrNew(this.falls, who, () => new Falls()).add(row, place, nanos);
    }

    clockLines(clock, programs) {
        const shown = [...programs].slice(0, SHOWN_MOST);
        const rest = [...programs.values()].slice(SHOWN_MOST);
        const count = rest.reduce((sum, it) => sum + it.count, 0);
        return [...shown.map(([name, program]) => `${clock} read by ${name}, ${program.text()}`),
            ...rest.length ? [`${clock} read by others: ${count} by ${rest.length} programs`] : []];
    }

    /** Returns lines in words, or that the readers aren't those of the script. */
    lines() {
        try {
            readersOf(this.text, this.reads).forEach((it, i) => this.assign(this.reads[i], it));
        } catch (fault) {
            if (!(fault instanceof Fault))
                throw fault;
            return [`readers: ${fault.message}`];
        }
        const falls = fallen(this.falls);
        return [...[...this.clocks].flatMap(([clock, programs]) => this.clockLines(clock, programs)),
            ...falls.slice(0, SHOWN_MOST).map(([who, it]) => `${who} ${it.text()}`),
            ...falls.length > SHOWN_MOST ? [`a clock went back for others: ${
                falls.length - SHOWN_MOST} times a clock and a process`] : []];
    }
}
