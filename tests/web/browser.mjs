/* SPDX-License-Identifier: MIT OR Apache-2.0 */
/*
 * Opens the page in Chromium without a window, and compares it with the examples' stored reports.
 *
 *     node tests/web/browser.mjs CHROMIUM PAGE                  runs the tests
 *     node tests/web/browser.mjs CHROMIUM PAGE PICTURE [HASH]   writes a picture of the page, a PNG
 */
import fs from 'node:fs';
import path from 'node:path';
import { fileURLToPath } from 'node:url';
import { Browser } from './tab.mjs';

const DATA = fileURLToPath(new URL('../../crates/tk_examples/data/', import.meta.url));
const SETTLED = 'document.getElementById("verdict").textContent.trim() !== "running"';
const ROWS = `[...document.querySelectorAll('#rows div')].map(it => it.textContent)`;
const TOPS = `{ const { top } = document.getElementById('script').getBoundingClientRect();
    [...document.querySelectorAll('#rows div')]
        .map(it => (it.getBoundingClientRect().top - top - 6) / 18) }`; // (the padding is 6 px)
const VERDICT = `document.getElementById('verdict').textContent.trim()`;

function require(is, what) {
    if (!is)
        throw new Error(what);
}

async function runScript(browser, text) {
    await browser.value(`{ const it = document.getElementById('script'); it.value = ${
        JSON.stringify(text)}; it.dispatchEvent(new Event('input'));
        document.getElementById('verdict').textContent = 'running'; 0 }`);
    await browser.until(SETTLED);
}

/** The rows of a report: the line of a read that differs is in the row of the read. */
function rowsOf(report) {
    return report.trimEnd().replaceAll('\ndiffers,', '  differs,').split('\n');
}

/** Each row is beside its record: a record is a line that isn't empty. */
async function checkPlaces(browser, name, text) {
    const lines = text.split('\n').flatMap((line, i) => line ? [i] : []);
    const tops = await browser.value(TOPS);
    require(JSON.stringify(tops) === JSON.stringify(lines), `${name}: rows at ${tops}`);
}

/** Chooses an example in the page's list. */
async function choose(browser, name) {
    await browser.value(`{ const list = document.getElementById('examples');
        list.value = [...list.options].findIndex(it => it.text === '${name.replaceAll('-', ' ')}');
        list.dispatchEvent(new Event('change')); 0 }`);
    await browser.until(SETTLED);
}

async function checkExample(browser, name) {
    const text = fs.readFileSync(`${DATA}${name}.csv`, 'utf8').replaceAll(/\r\n?/g, '\n');
    await choose(browser, name);
    const shown = await browser.value(`document.getElementById('script').value`);
    require(shown === text, `${name}: the list has another script: ${shown}`);
    const report = `${DATA}${name}.report`, rows = await browser.value(ROWS);
    if (!fs.existsSync(report)) {
        const fault = fs.readFileSync(`${DATA}${name}.fault`, 'utf8').trim().replace('tkcore: ', '');
        require(JSON.stringify(rows) === JSON.stringify([fault]), `${name}: ${rows}`);
        return;
    }
    const wanted = rowsOf(fs.readFileSync(report, 'utf8'));
    require(JSON.stringify(rows) === JSON.stringify(wanted), `${name}: ${rows.join('\n')}`);
    await checkPlaces(browser, name, text);
    const svg = await browser.value(`document.getElementById('plot').innerHTML`);
    const paths = svg.match(/<path d="M[^"]*"/g) ?? [];
    require(paths.length >= 2 && !svg.includes('NaN'), `${name}: ${paths.length} panels`);
}

/** The verdict counts records and reads, and a fault is beside its record. */
async function checkVerdict(browser) {
    await runScript(browser, 'open,32,16777216,24,0,1700000000,0\nupdate,5\nupdate,4\n'
        + 'get,9,monotonic,8\nget,9,monotonic,9\nget,4294967296,tai,1\n');
    require(await browser.value(VERDICT) === '2 reads differ 6 records, 2 refused',
        await browser.value(VERDICT));
    await runScript(browser, '"open",8,256,0,0,0,0\n\nget,1,"tai"\n\nget,1,"t""ai"\n');
    require((await browser.value(ROWS)).join() === 'script: record 3: not a plain line',
        await browser.value(ROWS));
    require((await browser.value(TOPS)).join() === '4', 'a fault is beside another record');
}

/** The cursor after the last record reads the clocks as `get` does there. */
async function checkCursor(browser) {
    await runScript(browser, 'open,32,16777216,24,0,1700000000,0\nupdate,2000000000\n');
    const right = `document.getElementById('plot').getBoundingClientRect()`;
    await browser.value(`document.getElementById('plot').dispatchEvent(new PointerEvent('pointermove',
        { clientX: ${right}.left + 76, clientY: ${right}.top + 100 })), 0`);
    await browser.until(`document.getElementById('cursor').textContent.includes('reading')`);
    const text = await browser.value(`document.getElementById('cursor').textContent`);
    require(/^reading 0, after record 1\n/.test(text), `the cursor: ${text}`);
    for (const words of ['realtime 1700000000.000000000 0 2023-11-14T22:13:20.000000000Z',
        'monotonic 0.000000000 0', 'monotonic_raw 0.000000000'])
        require(text.replace(/ +/g, ' ').includes(words), `the cursor: ${text}`);
}

/** The reads of a script, as a record of tkrun has them: a step back, and a pause. */
async function checkReads(browser) {
    const said = `document.getElementById('reads').textContent`;
    await runScript(browser, 'open,32,16777216,24,0,1700000000,0\nget,5,realtime\nget,7,tai\n'
        + 'step,1000000000,-2,0\nget,1500000007,realtime_coarse\nget,1500000007,realtime\n');
    require(await browser.value(said) === 'reads: 2 of realtime, 1 of tai, 1 of realtime_coarse\n'
        + 'longest time without a read: 1.500000000 s, before record 5\n'
        + 'realtime went back once, by 0.499999998 s at record 6', await browser.value(said));
    await runScript(browser, 'open,8,256,0,0,0,0\nupdate,1\n');
    require(await browser.value(said) === '', await browser.value(said));
}

/** Opens files as a user does. */
async function openFiles(browser, files) {
    const { root } = await browser.send('DOM.getDocument');
    const { nodeId } = await browser.send('DOM.querySelector', { nodeId: root.nodeId, selector: '#file' });
    const paths = Object.entries(files).map(([name, text]) => {
        fs.writeFileSync(path.join(browser.folder, name), text);
        return path.join(browser.folder, name);
    });
    await browser.value(`document.getElementById('verdict').textContent = 'running'`);
    await browser.send('DOM.setFileInputFiles', { nodeId, files: paths });
    await browser.until(SETTLED);
}

/** A record and its readers are opened together or one after the other; another script has none. */
async function checkReaders(browser) {
    const script = 'open,32,16777216,24,0,1700000000,0\nget,5,realtime\nstep,7,-2,0\nget,9,realtime\n';
    const readers = '2,5,31,32,gettimeofday,perl\n4,9,31,31,time,perl\n';
    const said = () => browser.value(`document.getElementById('reads').textContent`);
    const counts = 'reads: 2 of realtime\nlongest time without a read: 0.000000004 s, before record 4\n'
        + 'realtime went back once, by 1.999999996 s at record 4';
    const whole = `${counts}\nrealtime read by perl, process 31, 2 threads: 1 by gettimeofday, 1 by time\n`
        + 'realtime went back for perl, process 31, once, by 1.999999996 s at record 4';
    for (const [files, wanted] of [[{ 'r': script, 'r.readers': readers }, whole], [{ 'r': script }, counts],
        [{ 'r.readers': readers }, whole],
        [{ 'other.readers': readers.slice(0, 28) }, `${counts}\nreaders: record 4 has no line`]]) {
        await openFiles(browser, files);
        require(await said() === wanted, `${Object.keys(files)}: ${await said()}`);
        require(await browser.value(VERDICT) === 'done 4 records, 0 refused', await browser.value(VERDICT));
    }
    await browser.value(`document.getElementById('examples').dispatchEvent(new Event('change')), 0`);
    await browser.until(`!document.getElementById('reads').textContent.includes('readers:')`);
}

/** The relative luminance of a colour as WCAG 2 defines it, from 0 to 1. */
function luminance(color) {
    const [r, g, b] = color.match(/^rgb\((\d+), (\d+), (\d+)\)$/).slice(1).map(it => it / 255)
        .map(it => it <= 0.03928 ? it / 12.92 : ((it + 0.055) / 1.055) ** 2.4);
    return 0.2126 * r + 0.7152 * g + 0.0722 * b;
}

/** The contrast ratio of two colours as WCAG 2 defines it, from 1 to 21. It asks for 4.5 in texts. */
function contrast(one, other) {
    const [dark, light] = [luminance(one), luminance(other)].sort((a, b) => a - b);
    return (light + 0.05) / (dark + 0.05);
}

function colorOf(browser, selector, property = 'color') {
    return browser.value(`getComputedStyle(document.querySelector(${JSON.stringify(selector)}))[${
        JSON.stringify(property)}]`);
}

/** Refused commands, reads and reads that differ have colours of their own, which can be read. */
async function checkColors(browser, theme) {
    const card = await colorOf(browser, 'section', 'backgroundColor');
    require(luminance(card) > 0.5 === (theme === 'light'), `${theme}: the cards are ${card}`);
    await runScript(browser, 'open,32,16777216,24,0,1700000000,0\nupdate,1000000000\nupdate,5\n'
        + 'get,1000000000,monotonic\nget,1000000000,monotonic,7\n');
    const rows = ['#rows div:nth-child(2)', '#rows .no', '#rows .at', '#rows .differs'], texts = [];
    for (const row of [...rows, '#plot text.refused'])
        texts.push(await colorOf(browser, row, row.startsWith('#plot') ? 'fill' : 'color'));
    require(new Set(texts.slice(0, 4)).size === 4, `${theme}: rows in ${texts}`);
    const marks = [await colorOf(browser, '#plot line.mark', 'stroke'),
        await colorOf(browser, '#plot line.refused', 'stroke'),
        await colorOf(browser, '#plot .read', 'fill'), await colorOf(browser, '#plot .different', 'fill')];
    require(new Set(marks).size === 3 && marks[1] === marks[3], `${theme}: marks in ${marks}`);
    require(await browser.value(`document.querySelectorAll('#plot line.refused').length`) === 1,
        `${theme}: not one refused command is drawn`);
    await runScript(browser, 'open,1\n');
    texts.push(await colorOf(browser, '#rows .fault'), await colorOf(browser, '#verdict .bad'));
    for (const color of texts)
        require(contrast(color, card) >= 4.5, `${theme}: ${color} on ${card} can't be read`);
    require(texts[5] !== texts[0], `${theme}: a fault has the colour of other rows`);
}

/** The page is light or dark as the system is, and as its button says then. */
async function checkThemes(browser) {
    const isDark = `document.documentElement.classList.contains('dark')`;
    for (const theme of ['dark', 'light']) {
        await browser.send('Emulation.setEmulatedMedia',
            { features: [{ name: 'prefers-color-scheme', value: theme }] });
        await browser.until(`${isDark} === ${theme === 'dark'}`);
        await checkColors(browser, theme);
        await browser.value(`document.getElementById('theme').click(), 0`);
        await checkColors(browser, theme === 'dark' ? 'light' : 'dark');
    }
}

/** The page is one file: it has loaded nothing else. */
function checkRequests(browser, url) {
    const others = browser.requests.filter(it => it !== url && !/^(blob|data):/.test(it));
    require(browser.requests.includes(url) && !others.length, `the page has loaded ${others}`);
}

/** A script that takes minutes is ended, and the page runs the next one. */
async function checkLimit(browser) {
    await runScript(browser, 'open,63,1000,4,4611686018427387903,1704067199,0,1\n'
        + 'get,4626823298427387902,monotonic_raw\n');
    require(await browser.value(VERDICT) === 'ended after 5 seconds', await browser.value(VERDICT));
    const next = 'open,8,256,0,0,0,0\n\n\nupdate,1\n';
    await runScript(browser, next);
    require(await browser.value(VERDICT) === 'done 2 records, 0 refused',
        await browser.value(VERDICT));
    await checkPlaces(browser, 'empty lines', next);
}

async function check(browser, page) {
    const url = `file://${path.resolve(page)}`;
    await browser.open(url, 1440, 2400);
    const names = fs.readdirSync(DATA).map(it => path.parse(it)).filter(({ name, ext }) =>
        ext === '.report' || ext === '.fault' && !fs.existsSync(`${DATA}${name}.stamps`));
    for (const { name } of names) // (compare.py makes the reports of the others)
        await checkExample(browser, name);
    await checkVerdict(browser);
    await checkCursor(browser);
    await checkReads(browser);
    await checkReaders(browser);
    await checkLimit(browser);
    await checkThemes(browser);
    checkRequests(browser, url);
    require(!browser.errors.length, browser.errors.join('\n'));
    console.log(`${names.length} examples in ${path.basename(page)} have their reports and panels`);
}

async function takePicture(browser, page, picture, hash) {
    await browser.open(`file://${path.resolve(page)}#${hash}`, 1200, 600);
    await browser.value(`document.getElementById('plot').dispatchEvent(new PointerEvent('pointermove',
        { clientX: 980, clientY: 300 })), 0`);
    await browser.until(`document.getElementById('cursor').textContent.includes('reading')`);
    const { data } = await browser.send('Page.captureScreenshot', { format: 'png' });
    fs.writeFileSync(picture, Buffer.from(data, 'base64'));
}

const [program, page, picture, hash = ''] = process.argv.slice(2);
const browser = new Browser(program);
try {
    if (picture)
        await takePicture(browser, page, picture, hash);
    else
        await check(browser, page);
} catch (error) {
    console.error(`browser.mjs: ${error.message}`);
    process.exitCode = 1;
} finally {
    await browser.close();
}
