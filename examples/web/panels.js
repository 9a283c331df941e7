/* SPDX-License-Identifier: MIT OR Apache-2.0 */
/* panels.js - draws the curves of a script as SVG: a panel for each group of equal clocks. */
const NAMES = ['MONOTONIC', 'BOOTTIME', 'REALTIME', 'TAI'];
const KEYS = ['monotonic', 'boottime', 'realtime', 'tai'];
const UNITS = [['y', 31556952e9], ['d', 864e11], ['h', 36e11], ['s', 1e9], ['ms', 1e6],
    ['µs', 1e3], ['ns', 1]];
const LEFT = 76, RIGHT = 16, TOP = 26, BOTTOM = 26;
const POWERS = [1e3, 1e6, 1e9, 6e10, 864e11, 31556952e9]; // ns
const RATES = [1, 100, 1e4]; // ppm

function unitOf(nanos) {
    return UNITS.find(([name, size]) => Math.abs(nanos) >= size * ('ydh'.includes(name) ? 2 : 1))
        ?? UNITS.at(-1);
}

/** Returns a number of ns with a unit. */
export function duration(nanos, [name, size] = unitOf(nanos)) {
    return nanos === 0 ? '0' : `${Number((nanos / size).toPrecision(4))} ${name}`;
}

/** Returns round numbers between two, about `count`, in steps of 1, 2 or 5 of a unit. */
function ticks(low, high, count, unit) {
    const raw = (high - low) / unit / count || 1, power = 10 ** Math.floor(Math.log10(raw));
    const step = [1, 2, 5, 10].find(it => it * power >= raw) * power * unit, found = [];
    for (let i = Math.ceil(low / step); i * step <= high; i++)
        found.push(i * step);
    return found;
}

/** Returns the points of a clock. A place without a value is null. */
function pointsOf(drawn, clock) {
    const points = drawn.changes.flatMap(({ here, there }) => here ? [here, there] : [there]);
    return [...points, drawn.tail].map(({ place, ahead }) => ({ x: place, y: ahead[clock] }));
}

/** Returns the rate of REALTIME in ppm, between changes. Shorter stretches aren't drawn. */
function ratesOf(drawn) {
    const ends = [...drawn.changes.slice(1).map(it => it.here), drawn.tail], realtime = 2;
    return drawn.changes.flatMap(({ there, isAsleep }, i) => {
        const gap = ends[i].place - there.place;
        const y = (ends[i].ahead[realtime] - there.ahead[realtime]) / gap * 1e6;
        const isDrawn = !isAsleep && gap > drawn.end / 5000;
        return isDrawn ? [{ x: there.place, y }, { x: ends[i].place, y }] : [{ x: NaN, y: NaN }];
    });
}

const isSame = (one, other) => one.every(({ y }, i) => Object.is(y, other[i].y));

/** Returns the panels: clocks that are ahead by the same all the time share one. */
export function panelsOf(drawn) {
    const panels = [];
    KEYS.forEach((key, i) => {
        const points = pointsOf(drawn, i), same = panels.find(it => isSame(it.points, points));
        const reads = drawn.reads.filter(read => read.clock === key);
        if (same) {
            same.name += ` = ${NAMES[i]}`;
            same.clocks.push(key);
            same.reads.push(...reads);
        } else {
            const color = `var(--clock${i})`;
            panels.push({ name: NAMES[i], clocks: [key], color, points, reads });
        }
    });
    return [...panels, { name: 'rate of REALTIME', clocks: [], color: 'var(--rate)', isRate: true,
        points: ratesOf(drawn), reads: [] }];
}

/** Where a panel is, and how it maps numbers to pixels. */
class Scale {
    constructor(panel, top, height, byPowers) {
        this.panel = panel;
        this.bend = byPowers ? y => Math.asinh(y / (panel.isRate ? 1 : 1e3)) : y => y;
        this.byPowers = byPowers;
        this.height = height;
        const ys = [...panel.points, ...panel.reads.map(it => ({ y: it.ahead }))]
            .map(({ y }) => this.bend(y)).filter(y => !Number.isNaN(y));
        let low = ys.reduce((a, b) => Math.min(a, b), 0);
        let high = ys.reduce((a, b) => Math.max(a, b), 0);
        if (low === high)
            [low, high] = [-1, 1];
        const room = (high - low) * 0.08;
        [this.low, this.high] = [low - room, high + room];
        [this.top, this.bottom] = [top + 6, top + height - 6];
    }

    y(value) {
        return this.bottom - (this.bend(value) - this.low) / (this.high - this.low)
            * (this.bottom - this.top);
    }

    ticks() {
        const unit = this.panel.isRate ? ['ppm', 1] : unitOf(Math.max(-this.low, this.high));
        if (!this.byPowers)
            return ticks(this.low, this.high, Math.max(2, this.height / 34), unit[1])
                .map(y => ({ y, text: duration(y, unit) }));
        const sizes = this.panel.isRate ? RATES : POWERS;
        return [0, ...sizes, ...sizes.map(it => -it)]
            .filter(y => this.bend(y) >= this.low && this.bend(y) <= this.high)
            .sort((a, b) => a - b)
            .map(y => ({ y, text: this.panel.isRate ? duration(y, unit) : duration(y) }));
    }
}

const line = (x1, y1, x2, y2, more) =>
    `<line x1="${x1}" y1="${y1}" x2="${x2}" y2="${y2}" ${more}/>`;
const text = (x, y, words, more) => `<text x="${x}" y="${y}" ${more}>${words}</text>`;

function panelSvg(scale, width, across) {
    const { panel } = scale, grid = [];
    let lastY = Infinity;
    for (const { y, text: words } of scale.ticks()) {
        const at = scale.y(y);
        grid.push(line(LEFT, at, width - RIGHT, at, y === 0 ? 'class="zero"' : 'class="grid"'));
        if (lastY - at > 12) {
            grid.push(text(LEFT - 6, at + 4, words, 'text-anchor="end"'));
            lastY = at;
        }
    }
    let path = '', isOpen = false;
    for (const { x, y } of panel.points) {
        if (!Number.isNaN(y))
            path += `${isOpen ? 'L' : 'M'}${across(x).toFixed(1)} ${scale.y(y).toFixed(1)}`;
        isOpen = !Number.isNaN(y);
    }
    const dots = panel.reads.filter(it => !Number.isNaN(it.ahead)).map(it =>
        `<circle cx="${across(it.place).toFixed(1)}" cy="${scale.y(it.ahead).toFixed(1)}" class="${
            it.isDifferent ? 'different' : it.isCoarse ? 'coarse' : 'read'}" r="${
            it.isDifferent ? 4.5 : 2.4}"/>`);
    return `<g style="--color:${panel.color}">${grid.join('')}<path d="${path}"/>${dots.join('')}${
        text(LEFT + 8, scale.top + 12, panel.name, 'class="name"')}</g>`;
}

function sleepsSvg(drawn, height, across) {
    return drawn.changes.map((change, i) => {
        const end = (drawn.changes[i + 1]?.there ?? drawn.tail).place;
        const width = Math.max(1, across(end) - across(change.there.place));
        return change.isAsleep ? `<rect class="sleep" x="${across(change.there.place)}" y="${TOP}"
            width="${width}" height="${height - TOP - BOTTOM}"/>` : '';
    }).join('');
}

function marksSvg(drawn, width, height, across) {
    let free = -Infinity;
    return drawn.marks.map(({ word, place, isRefused }) => {
        const x = across(place), kind = isRefused ? 'refused' : 'mark';
        const half = 3.4 * word.length + 3; // px
        const middle = Math.min(x, width - half);
        const label = middle - half > free
            ? text(middle, TOP - 9, word, `text-anchor="middle" class="${kind}"`) : '';
        if (label)
            free = middle + half;
        return line(x, TOP - 4, x, height - BOTTOM, `class="${kind}"`) + label;
    }).join('');
}

/** Draws the panels. Returns the SVG's text, and how places map to pixels and back. */
export function draw(drawn, width, height, byPowers) {
    const end = drawn.end, inner = width - LEFT - RIGHT, across = x => LEFT + x / end * inner;
    const panels = panelsOf(drawn), each = (height - TOP - BOTTOM) / panels.length;
    const scales = panels.map((panel, i) => new Scale(panel, TOP + i * each, each, byPowers));
    const unit = unitOf(end), axis = ticks(0, end, Math.max(3, width / 130), unit[1]).map(x =>
        line(across(x), TOP, across(x), height - BOTTOM, 'class="grid"')
        + text(across(x), height - 8, duration(x, unit), 'text-anchor="middle"'));
    const borders = scales.slice(1).map((_, i) =>
        line(0, TOP + (i + 1) * each, width, TOP + (i + 1) * each, 'class="border"'));
    return {
        svg: axis.join('') + sleepsSvg(drawn, height, across)
            + marksSvg(drawn, width, height, across)
            + scales.map(scale => panelSvg(scale, width, across)).join('') + borders.join(''),
        scales, across, left: LEFT, right: width - RIGHT, top: TOP, bottom: height - BOTTOM,
        placeOf: x => Math.min(1, Math.max(0, (x - LEFT) / inner)) * end,
    };
}
