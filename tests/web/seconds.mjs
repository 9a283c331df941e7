/* SPDX-License-Identifier: MIT OR Apache-2.0 */
/*
 * Compares the number of seconds that begin up to a reading, by which the page decides how far it
 * draws, with arithmetic: the counter has 1 GHz, and the clocks open as a second begins.
 *
 *     node tests/web/seconds.mjs FOLDER
 *
 * FOLDER has tkcore.wasm and session.wasm.
 */
import { Clocks } from '../../examples/web/clocks.js';
import { Curves } from '../../examples/web/curves.js';
import { Library } from '../../examples/web/library.js';
import { Script } from '../../examples/web/report.js';
import { modulesIn } from './modules.mjs';

const modules = modulesIn(process.argv[2]);
const ROWS = [[0n, 0n], [999999999n, 0n], [1000000000n, 1n], [1999999999n, 1n],
    [200000000000n, 200n]];

/** Returns the clocks after a script of one record. */
function opened(record) {
    const script = new Script(modules.session, Buffer.from(`${record}\n`));
    const library = new Library(modules.library);
    const clocks = new Clocks(library, script.session, new Curves(library));
    script.run(clocks);
    return clocks;
}

const steered = opened('open,64,8388608,23,0,1700000000,0,250');
for (const [reading, wanted] of ROWS) {
    const found = steered.secondsUntil(reading);
    if (found !== wanted)
        throw new Error(`${found} seconds begin up to ${reading}, and not ${wanted}`);
}
if (opened('open,64,8388608,23,0,1700000000,0').secondsUntil(200000000000n) !== 0n)
    throw new Error('a second begins in clocks without a discipline');
console.log(`seconds: ${ROWS.length} numbers of seconds are those that begin`);
