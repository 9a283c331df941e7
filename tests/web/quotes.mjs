/* SPDX-License-Identifier: MIT OR Apache-2.0 */
/*
 * Tests which quotes the page removes from a script: rows written by the rules of docs/TKCORE.md,
 * and all short texts, whose records a reader by these rules must find unchanged.
 *
 *     node tests/web/quotes.mjs
 */
import assert from 'node:assert/strict';
import { withoutQuotes } from '../../examples/web/quotes.js';
import { recordsOf } from '../../examples/web/records.js';

const MARK = '\xef\xbb\xbf'; // of the order of bytes

// scripts with the records that the session gets
const REMOVED = [
    ['"open","32","16777216"\nupdate,7\n', ['open,32,16777216', 'update,7']],
    ['open,32\n"update","7"', ['open,32', 'update,7']],
    ['update,"7"\r\n\r\n"update",8\rupdate,"9"\r', ['update,7', 'update,8', 'update,9']],
    ['\n\nget,9,"tai"\n', ['get,9,tai']],
    [`${MARK}"open",32\n`, ['open,32']],
    [`"${MARK}open",32\n`, [`${MARK}open,32`]], // here the mark is a part of the field
    ['update,""\n"",7\n"",""\n', ['update,', ',7', ',']],
    ['update," 7"\n#,"a note"\n', ['update, 7', '#,a note']],
    ['get,9,"\xc3\xa4"\n', ['get,9,\xc3\xa4']],
];

// records that need quotes
const KEPT = ['update,"1,2"', 'update,"1""2"', 'update,""""', 'update,"7"8', 'update,7"8"', 'update,7"',
    'update, "7"', 'update,"7" ', 'update,"7', 'update,"', '"update,7', '""', '"update,"7",8',
    '# a "note"', '#"note"', '"update",7,"a"b"'];

function bytesOf(text) {
    return Uint8Array.from(text, it => it.charCodeAt(0));
}

/** Returns the texts of a script's records for the session. Each is in the line in which it was. */
function recordsFor(text) {
    const bytes = bytesOf(text), found = recordsOf(bytes), plain = withoutQuotes(bytes, found);
    assert.deepEqual(plain.records.map(it => it.line), found.map(it => it.line));
    return plain.records.map(({ start, end }) =>
        String.fromCharCode(...plain.bytes.subarray(start, end)));
}

/** Returns the field that starts at a place, and where it ends. */
function fieldAt(text, place) {
    let field = '', at = place, isQuoted = text[at] === '"';
    for (at += Number(isQuoted); at < text.length; at++) {
        if (isQuoted && text[at] === '"' && text[at + 1] !== '"')
            isQuoted = false;
        else if (isQuoted && text[at] === '"')
            field += text[++at];
        else if (!isQuoted && ',\r\n'.includes(text[at]))
            break;
        else
            field += text[at];
    }
    return [field, at];
}

/** Returns the fields of each record of a text. */
function fieldsOf(text) {
    const records = [];
    for (let at = 0; at < text.length; at++) {
        if ('\r\n'.includes(text[at]))
            continue;
        const fields = [];
        do {
            const [field, end] = fieldAt(text, at);
            fields.push(field);
            at = end + 1;
        } while (text[at - 1] === ',');
        at--; // (the line end, which the loop passes)
        records.push(fields);
    }
    return records;
}

/** Up to the first record that needs quotes, the records are those of the text. */
function checkText(text) {
    const lines = text.split(/[\r\n]/).filter(it => it);
    const records = recordsFor(text), wanted = fieldsOf(text);
    const first = records.findIndex(it => it.includes('"'));
    const count = first < 0 ? records.length : first;
    assert.deepEqual(records.slice(0, count).map(it => it.split(',')),
        first < 0 ? wanted : wanted.slice(0, count), JSON.stringify(text));
    assert.ok(first < 0 || lines[first] === '""'
        || lines[first].split(',').some(it => !/^("[^"]*"|[^"]*)$/.test(it)), JSON.stringify(text));
}

/** Returns all texts of this length. */
function textsOf(length) {
    return length ? textsOf(length - 1).flatMap(text => [...'",a\r\n'].map(it => text + it)) : [''];
}

for (const [text, wanted] of REMOVED)
    assert.deepEqual(recordsFor(text), wanted);
for (const record of KEPT)
    assert.deepEqual(recordsFor(`open,"8"\n${record}\n"update",7`), ['open,8', record, 'update,7']);
assert.deepEqual(recordsFor('get,9,"t\nai"\n'), ['get,9,"t', 'ai"']);
let count = 0;
for (let length = 1; length <= 7; length++) {
    const texts = textsOf(length).filter(it => /[^\r\n]/.test(it)); // with a record
    texts.forEach(checkText);
    count += texts.length;
}
console.log(`quotes: ${REMOVED.length + KEPT.length + 1} scripts and ${count} short texts are those of csv`);
