/* SPDX-License-Identifier: MIT OR Apache-2.0 */
/* page.js - the page: a script, its report beside it, and the curves of its clocks. */
import { draw, duration } from './panels.js';

const LIMIT = 5000; // ms that a run may take
const ROW = 18; // px
const $ = id => document.getElementById(id);
const data = JSON.parse($('data').textContent);
const asked = new URLSearchParams(location.hash.slice(1));

let modules = null, worker = null, id = 0, timer = 0;
let readers = null; // the text that says who made each read, or none
let shown = { rows: new Map(), starts: [], drawn: null, picture: null };
let byPowers = asked.has('powers'), here = null, isBusy = false, wanted = null;

/** Returns the modules of the library and the session: of wasm64, or without 64-bit memories. */
async function modulesOf() {
    const compiled = async text => {
        const packed = Uint8Array.from(atob(text), it => it.charCodeAt(0));
        const stream = new Blob([packed]).stream().pipeThrough(new DecompressionStream('gzip'));
        return WebAssembly.compile(await new Response(stream).arrayBuffer());
    };
    const both = async ({ library, session }) =>
        ({ library: await compiled(library), session: await compiled(session) });
    for (const texts of data.modules.slice(0, -1)) {
        try {
            return await both(texts);
        } catch {
            // this browser has no memories of 64 bits
        }
    }
    return both(data.modules.at(-1));
}

function startWorker() {
    worker?.terminate();
    const source = URL.createObjectURL(new Blob([$('worker').textContent],
        { type: 'text/javascript' }));
    worker = new Worker(source);
    URL.revokeObjectURL(source);
    worker.onmessage = ({ data: answer }) => {
        if (answer.id === id)
            take(answer);
    };
    worker.onerror = event => fail(`the page failed: ${event.message}`);
}

/** Ends the worker, and says why there is no report. */
function fail(why) {
    clearTimeout(timer);
    worker?.terminate();
    worker = null;
    isBusy = false;
    show({ fault: why });
}

/** Runs the script in a new worker, which is ended after five seconds. */
function run() {
    clearTimeout(timer);
    startWorker();
    id++;
    here = wanted = null;
    isBusy = true;
    say('running', '');
    timer = setTimeout(() => fail(`ended after ${LIMIT / 1000} seconds`), LIMIT);
    const bytes = new TextEncoder().encode($('script').value);
    worker.postMessage({ id, modules, bytes, readers });
}

function take(answer) {
    clearTimeout(timer);
    isBusy = false;
    if (answer.cursor)
        showCursor(answer.cursor);
    else
        show(answer);
    if (wanted !== null)
        ask(wanted);
}

/** Asks for the clocks at a place; only the latest place counts while the worker is busy. */
function ask(place) {
    wanted = isBusy ? place : null;
    if (isBusy || !worker || !shown.drawn)
        return;
    isBusy = true;
    timer = setTimeout(() => fail(`ended after ${LIMIT / 1000} seconds`), LIMIT);
    worker.postMessage({ id, place });
}

function say(verdict, rest, isBad = false) {
    const head = document.createElement('b');
    head.textContent = verdict;
    head.className = isBad ? 'bad' : '';
    $('verdict').replaceChildren(head, ` ${rest}`);
}

function show({ report = [], lines = [], differing = 0, drawn = null, reads = [], fault = null }) {
    shown = { rows: new Map(), starts: lines, drawn, picture: null };
    report.forEach((text, i) => shown.rows.set(lines[i], { text, record: i + 1 }));
    if (fault) {
        const record = /record (\d+)/.exec(fault), line = record ? lineOfRecord(+record[1]) : 0;
        shown.rows.set(line, { text: fault, isFault: true });
        say(fault, '', true);
    } else {
        const refused = report.filter(it => it.startsWith('no,')).length;
        say(differing ? `${differing} reads differ` : 'done', `${report.length} records, ${
            refused} refused`, differing > 0);
    }
    $('reads').textContent = reads.join('\n');
    document.documentElement.dataset.state = fault ? 'fault' : 'done';
    $('rows').style.height = `${$('script').value.split('\n').length * ROW}px`;
    showRows();
    showPicture();
}

/** Returns the line of a record with a fault: a record is a line that isn't empty. */
function lineOfRecord(record) {
    const lines = $('script').value.split('\n');
    for (let i = 0, found = 0; i < lines.length; i++) {
        found += Number(lines[i] !== '');
        if (found === record)
            return i;
    }
    return 0;
}

/** Shows the rows of the report that are in sight. */
function showRows() {
    const first = Math.floor($('report').scrollTop / ROW);
    const most = Math.ceil($('report').clientHeight / ROW) + 1, rows = [];
    for (let i = first; i <= first + most; i++) {
        if (shown.rows.has(i))
            rows.push(rowOf(i, shown.rows.get(i)));
    }
    $('rows').replaceChildren(...rows);
}

function rowOf(i, { text, record, isFault }) {
    const row = document.createElement('div'), [line, differs] = text.split('  ');
    row.style.top = `${i * ROW}px`;
    row.className = isFault ? 'fault' : line.slice(0, 2) === 'no' || line.slice(0, 2) === 'at'
        ? line.slice(0, 2) : '';
    row.textContent = isFault ? text : line;
    if (differs) {
        const note = document.createElement('span');
        note.className = 'differs';
        note.textContent = `  ${differs}`;
        row.append(note);
    }
    row.classList.toggle('here', here !== null && record === here.row);
    return row;
}

function showPicture() {
    const { width, height } = $('plot').getBoundingClientRect();
    $('cursor').textContent = '';
    $('plot').setAttribute('viewBox', `0 0 ${width} ${height}`);
    if (!shown.drawn || width < 200)
        $('plot').replaceChildren();
    else {
        shown.picture = draw(shown.drawn, width, height, byPowers);
        $('plot').innerHTML = `${shown.picture.svg}<g id="at"></g>`; // (words and numbers of ours)
    }
    if (here)
        showCursor(here);
}

function lineOfTime({ clock, text, ahead, utc }) {
    const sign = ahead > 0 ? '+' : '', more = Number.isNaN(ahead) ? '' : sign + duration(ahead);
    return `${clock.padEnd(16)} ${text.padStart(21)}  ${more.padStart(12)}  ${utc ?? ''}`;
}

/** Shows the clocks at a place, and where the cursor is. */
function showCursor(cursor) {
    here = cursor;
    const at = `after record ${cursor.row}${cursor.isAsleep ? ', asleep' : ''}`;
    $('cursor').textContent = cursor.reading === null
        ? `${at}: further than half of the counter's range`
        : [`reading ${cursor.reading}, ${at}`, ...cursor.times.map(lineOfTime)].join('\n');
    if (shown.picture && cursor.reading !== null) {
        const { scales, across, top, bottom } = shown.picture, x = across(cursor.place);
        const dots = scales.flatMap(scale => cursor.times
            .filter(it => it.clock === scale.panel.clocks[0] && !Number.isNaN(it.ahead))
            .map(it => `<circle class="cursor" style="--color:${scale.panel.color}" r="4" cx="${x
            }" cy="${scale.y(it.ahead)}"/>`));
        $('at').innerHTML = `<line class="cursor" x1="${x}" x2="${x}" y1="${top}" y2="${bottom}"/>`
            + dots.join('');
    }
    showRows();
}

function moveCursor(x) {
    if (shown.picture)
        ask(shown.picture.placeOf(x));
}

function onKey(event) {
    const steps = { ArrowLeft: -1, ArrowRight: 1 }[event.key] * (event.shiftKey ? 20 : 1);
    if (!steps || !shown.picture)
        return;
    event.preventDefault();
    const { across, left } = shown.picture;
    moveCursor((here?.place === undefined ? left : across(here.place)) + steps);
}

function setDark(isDark) {
    document.documentElement.classList.toggle('dark', isDark);
}

function choose(place) {
    $('examples').value = place;
    setScript(data.examples[place][1]);
    run();
}

/** Shows another script, which has no readers yet. */
function setScript(text) {
    $('script').value = text;
    $('script').scrollTop = 0;
    readers = null;
}

/** Opens a script, its readers, or both: the file of the readers has this ending. */
async function openFiles(files) {
    const isReaders = file => file.name.endsWith('.readers');
    const script = files.find(file => !isReaders(file)), second = files.find(isReaders);
    if (script)
        setScript(await script.text());
    if (second)
        readers = await second.text();
    run();
}

function labelScale() {
    $('scale').textContent = byPowers ? 'Scale: by powers' : 'Scale: even';
}

function wire() {
    const prefers = matchMedia('(prefers-color-scheme: dark)');
    setDark(asked.has('dark') || prefers.matches && !asked.has('light'));
    prefers.onchange = event => setDark(event.matches);
    $('theme').onclick = () => setDark(!document.documentElement.classList.contains('dark'));
    labelScale();
    $('scale').onclick = () => {
        byPowers = !byPowers;
        labelScale();
        showPicture();
    };
    data.examples.forEach(([name], i) => $('examples').append(new Option(name, i)));
    $('examples').onchange = event => choose(event.target.value);
    $('file').onchange = event => openFiles([...event.target.files]);
    let pause = 0;
    $('script').oninput = () => {
        clearTimeout(pause);
        pause = setTimeout(run, 150);
    };
    $('script').onscroll = () => { $('report').scrollTop = $('script').scrollTop; };
    $('report').onscroll = () => {
        $('script').scrollTop = $('report').scrollTop;
        showRows();
    };
    $('plot').onpointermove = $('plot').onpointerdown = event =>
        moveCursor(event.clientX - $('plot').getBoundingClientRect().left);
    $('plot').onkeydown = onKey;
    new ResizeObserver(() => { showPicture(); showRows(); }).observe($('plot'));
}

wire();
modules = await modulesOf();
const first = data.examples.findIndex(([name]) => name.startsWith(asked.get('example') ?? '27'));
choose(Math.max(0, first));
