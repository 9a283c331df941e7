/* SPDX-License-Identifier: MIT OR Apache-2.0 */
/*
 * Makes the reports of scripts with the code of examples/web, for compare.py.
 *
 *     node tests/web/reports.mjs FOLDER <SCRIPTS
 *
 * FOLDER has tkcore.wasm and session.wasm. A line of SCRIPTS is a script in base64, and after a space
 * may be its readers. A line of the output is a list in JSON for it: the exit status that tkcore would
 * have, its output, its line of standard error, and for some scripts what the page says of their reads,
 * and what the cursor shows at some places. For each of these places there is a script whose last lines
 * are these reads.
 */
import readline from 'node:readline';
import { Clocks } from '../../examples/web/clocks.js';
import { Curves, SECONDS_MOST } from '../../examples/web/curves.js';
import { Library } from '../../examples/web/library.js';
import { Fault } from '../../examples/web/records.js';
import { Readers } from '../../examples/web/readers.js';
import { Script, timeText, utcText } from '../../examples/web/report.js';
import { modulesIn } from './modules.mjs';

const modules = modulesIn(process.argv[2]);

const DRAWN_EVERY = 4; // scripts
const PLACES = [0.37, 1]; // parts of what is drawn
const ORIGIN = ['monotonic_raw', 'boottime', 'monotonic', 'realtime'];
const REFUSALS = { 4: 'invalid', 6: 'range' };

function lineOf({ clock, code, ...time }) {
    if (code)
        return `no,${REFUSALS[code]}`;
    const utc = clock.startsWith('realtime') ? `,${utcText(time)}` : '';
    return `at,${clock},${timeText(time)}${utc}`;
}

/** Returns what the cursor shows at a place, and a script with the same reads. A read at the last change
 * lets its second begin: from the record before it, the reading may be further than half the range. */
function cursorAt(curves, records, first, place) {
    const { row, since, reading, times, isAsleep, place: found } = curves.readAll(place);
    if (reading === null)
        return [];
    const before = ORIGIN.map(clock => `get,${first},${clock}`);
    const after = times.map(({ clock }) => `get,${reading},${clock}`);
    const script = [records[0], ...before, ...records.slice(1, row), `get,${since},monotonic`,
        ...after].join('\n');
    return [{ script, lines: times.map(lineOf), place: found, isAsleep,
        asked: Number(place), ahead: times.map(({ clock, ahead }) => [clock, ahead]) }];
}

/** Returns what the cursor shows. Drawing changes no line of the report, as every script shows. Where
 * the next second was due long ago, a read in a script would let all seconds since then begin. */
function cursorsOf(curves, clocks, records) {
    const { end } = curves.finish(clocks), { library } = curves, first = curves.changes[0].reading;
    if (clocks.secondsUntil(library.lastOf(clocks.snapshot)) > SECONDS_MOST)
        return [];
    return PLACES.flatMap(part =>
        cursorAt(curves, records, first, BigInt(Math.floor(end * part))));
}

/** Throws if the ideal line jumps at a change: it goes on but for rounding to ns. */
function checkPlaces(changes) {
    for (const { here, there, row } of changes) {
        const [from, to] = [here?.place ?? there.place, there.place];
        if (from !== null && to !== null && ![-1n, 0n, 1n].includes(to - from))
            throw new Error(`record ${row} moves the ideal line from ${from} ns to ${to} ns`);
    }
}

/** Returns the script's lines, and what the page says of its reads and shows at its cursor. */
function drawnOf(script, readers) {
    const library = new Library(modules.library), curves = new Curves(library);
    const clocks = new Clocks(library, script.session, curves);
    if (readers !== undefined)
        curves.readers = new Readers(readers.toString());
    const lines = script.run(clocks);
    checkPlaces(curves.changes);
    const plain = Buffer.from(script.bytes); // without quotes
    const records = script.records.map(({ start, end }) => plain.toString('latin1', start, end));
    return { lines, drawn: { reads: curves.readLines(), cursors: cursorsOf(curves, clocks, records) } };
}

function reportOf(bytes, readers, isDrawn) {
    try {
        const script = new Script(modules.session, bytes);
        const { lines, drawn } = isDrawn ? drawnOf(script, readers)
            : { lines: script.run(), drawn: null };
        return [script.session.differences() ? 3 : 0, lines.map(it => `${it}\n`).join(''), '', drawn];
    } catch (fault) {
        if (!(fault instanceof Fault))
            throw fault;
        return [1, '', `tkcore: script: ${fault.message}\n`, null];
    }
}

let number = 0;
for await (const line of readline.createInterface({ input: process.stdin })) {
    const [bytes, readers] = line.split(' ').map(text => Buffer.from(text, 'base64'));
    console.log(JSON.stringify(reportOf(bytes, readers, number++ % DRAWN_EVERY === 0)));
}
