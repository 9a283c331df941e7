/* SPDX-License-Identifier: MIT OR Apache-2.0 */
/* worker.js - runs a script for the page, and reads the clocks at its cursor. */
import { Clocks } from './clocks.js';
import { Curves } from './curves.js';
import { Library, REFUSALS } from './library.js';
import { Fault } from './records.js';
import { Readers } from './readers.js';
import { Script, timeText, utcText } from './report.js';

let curves = null; // of the script that was run

/** Returns a script's report and curves, or its fault. The text of its readers may be null. */
function answerScript({ library: module, session }, bytes, readers) {
    curves = null;
    try {
        const script = new Script(session, bytes), library = new Library(module);
        const drawn = new Curves(library), clocks = new Clocks(library, script.session, drawn);
        drawn.readers = readers === null ? null : new Readers(readers);
        const report = script.run(clocks);
        curves = drawn;
        return { report: report.map(lines => lines.replace('\n', '  ')),
            lines: script.records.map(it => it.line), differing: script.session.differences(),
            drawn: drawn.finish(clocks), reads: drawn.readLines() };
    } catch (fault) {
        if (!(fault instanceof Fault))
            throw fault;
        return { fault: `script: ${fault.message}` };
    }
}

function clockText({ clock, code, sec, nsec, ahead }) {
    if (code)
        return { clock, text: `no,${REFUSALS[code]}`, ahead };
    return { clock, text: timeText({ sec, nsec }), ahead,
        utc: clock.startsWith('realtime') ? utcText({ sec, nsec }) : '' };
}

function answerCursor(place) {
    const { times, ...where } = curves.readAll(BigInt(Math.round(place)));
    return { cursor: { ...where, times: times.map(clockText) } };
}

onmessage = ({ data: { id, modules, bytes, readers, place } }) => {
    const answer = modules ? answerScript(modules, bytes, readers)
        : curves ? answerCursor(place) : {};
    postMessage({ id, ...answer });
};
