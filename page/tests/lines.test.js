import { test } from 'node:test';
import assert from 'node:assert/strict';

import { EXAMPLES, companion, expected, refusal } from './companion.js';
import { KINDS, parse } from '../lines.js';
import { Reader, textOf } from '../reader.js';
import { Sky } from '../sky.js';
import { TABLES } from '../fields.js';
import { derived } from '../pages.js';

// Lines of the kinds that no example has, by the forms of docs/FORMATS.md.
const OTHERS = [
  '1 5 gap 0 3', '2 6 unlock 1', '2 7 lost 1', '3 8 err 9', '3 8 err 10', '8 9 state 7 idle',
  '1 9 state 0 acquire 32 17 83886', '1 9 state 3 hold 7 12',
  '1 10 state 2 track 9 1 -65537 3 open',
  `1 11 msg 2 ${'41f87f'.repeat(7)}20`, `1 12 als 0 toa=147:12 ${Array(32).fill(63).join(' ')}`,
  `1 13 alm 0 ${page('alm', -1)}`, `1 14 utc 0 ${page('utc', 1)}`, `1 15 hlt 0 ${page('hlt', 1)}`,
  `1 16 eph 0 ${page('eph', -1)}`, '9 17 lock 3',
  '1 18 sub 0 5 100799 8b0114 ------ 115000 46d440 87b875 fc1f8a 312704 5e6cfc 00ff9e dd9255',
];

/** @param {keyof typeof TABLES} kind @param {number} sign */
function page(kind, sign) {
  return TABLES[kind].map((it, at) => {
    const integer = it.isSigned ? sign * (at + 1) : (at % 2);
    return `${it.name}=${integer}:${it.exponent}`;
  }).join(' ');
}

/** The record of a line by the companion's names. @param {import('../lines.js').Line} line */
function record(line) {
  const result = /** @type {Record<string, unknown>} */ ({ ...line });
  if (line.kind === 'sub') line.words.forEach((it, at) => { result[`w${at + 1}`] = it; });
  if (line.kind === 'als') line.healths.forEach((it, at) => { result[`h${at + 1}`] = it; });
  if ('values' in line) {
    TABLES[line.kind].forEach((it, at) => { result[it.name] = line.values[at]; });
    Object.assign(result, derived(line));
  }
  for (const name of ['words', 'healths', 'values']) delete result[name];
  return result;
}

/** @param {string} text */
function compare(text) {
  const sky = new Sky(2046000);
  const texts = text.split('\n').slice(0, -1), lines = texts.map(parse);
  const objects = companion(['json'], text).split('\n').slice(0, -1).map((it) => JSON.parse(it));
  assert.equal(lines.length, objects.length);
  lines.forEach((line, at) => {
    const { satellite, ...own } = objects[at], pass = sky.feed(line);
    const { satellite: named, ...mine } = record(line);
    assert.deepEqual(close(mine), close(own), texts[at]);
    if (named !== undefined) assert.equal(named, satellite, texts[at]);
    if (satellite !== undefined) assert.equal(pass?.satellite, satellite, texts[at]);
  });
}

// Radians may differ in the last place, since the standard's pi is rounded before it is multiplied.
/** @param {Record<string, unknown>} values */
function close(values) {
  return Object.fromEntries(Object.entries(values).map(([name, it]) =>
    [name, /_rad(_per_s)?$/.test(name) ? Number(it).toPrecision(15) : it]));
}

for (const name of EXAMPLES) {
  test(`the values of ${name} are those of the companion`, () => compare(expected(name)));
}

test('the values of lines of each other kind are those of the companion', () => {
  const text = OTHERS.map((it) => `${it}\n`).join('');
  compare(text);
  const seen = new Set([...EXAMPLES.map(expected), text].join('').split('\n')
    .map((it) => it.split(' ')[2]));
  for (const kind of KINDS) assert.ok(seen.has(kind), kind);
});

/** @param {string[]} pieces */
function read(pieces) {
  /** @type {string[]} */
  const texts = [];
  const reader = new Reader((_, text) => texts.push(text));
  for (const piece of pieces) reader.push(piece);
  return { texts, sentence: reader.end() };
}

test('pieces of any size give the same lines', () => {
  const text = expected('three_satellites');
  const whole = read([text]);
  assert.equal(whole.sentence, '');
  assert.equal(whole.texts.length, 19);
  for (const size of [1, 7, 64]) {
    const pieces = text.match(new RegExp(`[^]{1,${size}}`, 'g')) ?? [];
    assert.deepEqual(read(pieces), whole);
  }
});

test('what is no line is said as the companion says it, and what came before stays', () => {
  const before = '1 0 ok\n1 5 lock 0\n';
  const bad = [
    'hello\n', '1 0 ok', '1 0\n', '0 0 ok\n', '1 00 ok\n', '1 0 ok \n', '1 0 ok\r\n', '\n',
    '1 0 count 0 1 2 3 4 5\n', '1 0 count 0 1 2 3 4 5 -0\n', '1 0 err 11\n',
    '1 0 acq 0 33 none 0 0 0\n', '1 0 state 0 track 3 1 1 1 closed\n', '1 0 lock 8\n',
    '{"kind": "ok"}\n', '\u0089PNG\r\n\u001a\n',
    `1 0 als 0 toa=256:12 ${Array(32).fill(0).join(' ')}\n`, `1 0 ${'x'.repeat(5000)}`,
    `1 0 eph 0 ${page('eph', -1).replace('wn=0', 'wn=1024')}\n`, `1 0 msg 0 ${'4'.repeat(43)}\n`,
  ];
  for (const text of bad) {
    const { texts, sentence } = read([before + text]);
    assert.deepEqual(texts, ['1 0 ok', '1 5 lock 0'], text);
    assert.match(sentence, /^line 3/, text);
    assert.equal(sentence, refusal(before + text), text);
  }
});

test('each byte is a character', () => {
  const bytes = Uint8Array.from({ length: 10000 }, (_, at) => (at * 7) % 256);
  assert.deepEqual([...textOf(bytes)].map((it) => it.charCodeAt(0)), [...bytes]);
  assert.equal(textOf(new TextEncoder().encode('1 0 ok\n')), '1 0 ok\n');
  // A mark of the byte order is no part of a line either.
  assert.equal(textOf(Uint8Array.of(0xef, 0xbb, 0xbf, 0x31)), '\xef\xbb\xbf1');
});

test('after a text that is no line nothing more is read', () => {
  assert.deepEqual(read(['1 0 ok\nx\n1 1 ok\n', '1 2 ok\n']).texts, ['1 0 ok']);
});
