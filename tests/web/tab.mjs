/* SPDX-License-Identifier: MIT OR Apache-2.0 */
/* Runs Chromium without a window, for browser.mjs. */
import { spawn } from 'node:child_process';
import fs from 'node:fs';
import os from 'node:os';
import path from 'node:path';

const MOST = 60000; // ms for a step that must happen

/** A browser with one tab, over a pipe. */
export class Browser {
    constructor(program) {
        this.folder = fs.mkdtempSync(path.join(os.tmpdir(), 'page-'));
        this.process = spawn(program, ['--headless', '--no-sandbox', '--disable-gpu',
            '--no-first-run', '--remote-debugging-pipe', `--user-data-dir=${this.folder}`,
            'about:blank'], { stdio: ['ignore', 'ignore', 'ignore', 'pipe', 'pipe'] });
        this.waiting = new Map();
        this.number = 0;
        this.rest = '';
        this.errors = [];
        this.requests = []; // the addresses that the page has loaded
        this.process.stdio[4].on('data', data => this.read(data.toString()));
    }

    read(text) {
        const messages = (this.rest + text).split('\0');
        this.rest = messages.pop();
        for (const { id, method, params, result, error } of messages.map(it => JSON.parse(it))) {
            this.waiting.get(id)?.(error ? { error } : result);
            if (method === 'Network.requestWillBeSent')
                this.requests.push(params.request.url);
            if (method === 'Runtime.exceptionThrown')
                this.errors.push(params.exceptionDetails.exception?.description
                    ?? params.exceptionDetails.text);
        }
    }

    send(method, params = {}) {
        const id = ++this.number, message = { id, method, params, sessionId: this.session };
        return new Promise(done => {
            this.waiting.set(id, done);
            this.process.stdio[3].write(`${JSON.stringify(message)}\0`);
        });
    }

    async open(url, width, height) {
        const { targetInfos } = await this.send('Target.getTargets');
        const { targetId } = targetInfos.find(it => it.type === 'page');
        const { sessionId } = await this.send('Target.attachToTarget', { targetId, flatten: true });
        this.session = sessionId;
        await this.send('Runtime.enable');
        await this.send('Network.enable');
        await this.send('Emulation.setDeviceMetricsOverride',
            { width, height, deviceScaleFactor: 1, mobile: false });
        await this.send('Page.navigate', { url });
        await this.until('document.getElementById("verdict")?.textContent.includes("records")');
    }

    async value(expression) {
        const found = await this.send('Runtime.evaluate', { expression, awaitPromise: true,
            returnByValue: true });
        return found.result?.value;
    }

    /** Waits until an expression is true. */
    async until(expression) {
        for (const start = Date.now(); Date.now() - start < MOST;) {
            if (await this.value(expression))
                return;
            await new Promise(done => setTimeout(done, 20));
        }
        throw new Error(`never: ${expression}; ${await this.value('document.body.innerText')}`);
    }

    /** Ends the browser, and removes its folder, which its processes may still write to a while. */
    async close() {
        const isEnded = new Promise(done => this.process.once('close', done));
        this.process.kill();
        await isEnded;
        for (let i = 0; i < 50 && fs.existsSync(this.folder); i++) {
            try {
                fs.rmSync(this.folder, { recursive: true, force: true });
            } catch {
                await new Promise(done => setTimeout(done, 100));
            }
        }
    }
}
