/* SPDX-License-Identifier: MIT OR Apache-2.0 */
/* Compiles the modules in a folder, for the tests of the page. */
import fs from 'node:fs';
import path from 'node:path';

export function modulesIn(folder) {
    const compiled = name => new WebAssembly.Module(fs.readFileSync(path.join(folder, name)));
    return { library: compiled('tkcore.wasm'), session: compiled('session.wasm') };
}
