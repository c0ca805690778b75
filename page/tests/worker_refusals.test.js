// Whatever can't be done has one sentence, and nothing is thrown.

import assert from 'node:assert/strict';
import { readFileSync } from 'node:fs';
import { test } from 'node:test';
import { ENDING, FLAG, FORMAT, KIND, SENTENCES } from '../worker_job.js';
import { answer } from '../worker_task.js';
import { done, jobOf } from './worker_bank.js';

const BYTES = new Uint8Array(100);
const NAN = new Uint8Array(new Float32Array([1, NaN, 2, 3, 4, 5, 6, 7]).buffer);
const INFINITE = new Uint8Array(new Float32Array([1, -Infinity]).buffer);
const MEASURE = /** @type {const} */ ('measure');

/** @type {[string, keyof typeof ENDING, Uint8Array, Partial<import('../worker_job.js').Job>][]} */
const REFUSED = [
  ['no script', 'Clients', BYTES, { scripts: [] }],
  ['nine scripts', 'Clients', BYTES, { scripts: Array(9).fill('') }],
  ['a share of no slot', 'Share', BYTES, { shares: [0] }],
  ['a share of nine slots', 'Share', BYTES, { shares: [9] }],
  ['a share of 257 slots', 'Share', BYTES, { shares: [257] }],
  ['fewer shares than scripts', 'Share', BYTES, { scripts: ['', ''], shares: [4] }],
  ['a low rate', 'Rate', BYTES, { rate: 2045999 }],
  ['a high rate', 'Rate', BYTES, { rate: 20000001 }],
  ['a rate with a part', 'Rate', BYTES, { rate: 2046000.5 }],
  ['a rate that is no number', 'Rate', BYTES, { rate: NaN }],
  ['a rate past 32 bits', 'Rate', BYTES, { rate: 2 ** 32 + 2046000 }],
  ['an offset of more than half the rate', 'Offset', BYTES, { offset: -1023001 }],
  ['an offset past 32 bits', 'Offset', BYTES, { offset: 2 ** 32 }],
  ['an offset with a part', 'Offset', BYTES, { offset: 0.5 }],
  ['pairs of real values', 'Pairs', BYTES, { kind: KIND.i8, format: FORMAT.iq1 }],
  ['sizes of bits', 'Sizes', BYTES, { kind: KIND['bits1-low'], format: FORMAT.real2 }],
  ['one part of complex samples', 'Part', BYTES,
    { kind: KIND.i8, format: FORMAT.iq1, flags: FLAG.paired + FLAG.quadrature }],
  ['a threshold below 0', 'Number', BYTES, { kind: KIND.i8, threshold2: -1 }],
  ['a threshold of quarters', 'Number', BYTES, { kind: KIND.i8, threshold2: 0.5 }],
  ['a threshold that is no number', 'Number', BYTES, { kind: KIND.i8, threshold2: NaN }],
  ['a float as threshold that is too great', 'Number', BYTES, { kind: KIND.f32, threshold2: 1e39 }],
  ['a float as threshold that is below 0', 'Number', BYTES, { kind: KIND.f32, threshold2: -1e-50 }],
  ['a far centre', 'Number', BYTES, { kind: KIND.i8, centre2: 2000002 }],
  ['a format that is none', 'Number', BYTES, { format: 4 }],
  ['a kind that is none', 'Number', BYTES, { kind: 10 }],
  ['an empty file', 'Empty', BYTES.subarray(0, 0), {}],
  ['a file that ends before it begins', 'Skipped', BYTES, { skip: 800 }],
  ['a skip inside a byte', 'Stretch', BYTES, { skip: 4 }],
  ['a count inside a byte', 'Stretch', BYTES, { count: 12 }],
  ['a count below 0', 'Stretch', BYTES, { count: -8 }],
  ['a count with a part', 'Stretch', BYTES, { count: 0.5 }],
  ['a float that is no number', 'NotANumber', NAN, { kind: KIND.f32 }],
  ['measured: a float that is no number', 'NotANumber', NAN, { task: MEASURE, kind: KIND.f32 }],
  ['measured: a float without an end', 'Infinite', INFINITE, { task: MEASURE, kind: KIND.f32 }],
  ['measured: an empty file', 'Empty', BYTES.subarray(0, 0), { task: MEASURE, kind: KIND.u8 }],
  ['measured: less than a sample', 'Nothing', BYTES.subarray(0, 1),
    { task: MEASURE, kind: KIND.i16 }],
  ['measured: what is packed already', 'Number', BYTES, { task: MEASURE, kind: KIND.packed }],
  ['measured: real values the other way round', 'Pairs', BYTES,
    { task: MEASURE, kind: KIND.i8, flags: FLAG.swapped }],
];

for (const [what, name, bytes, more] of REFUSED) {
  test(`${what} is refused by a sentence`, async () => {
    const { status, sentence, lines, reports } = await done(bytes, more);
    assert.deepEqual([status, lines, reports.length], [ENDING[name], '', 1]);
    assert.equal(sentence, SENTENCES[ENDING[name]]);
  });
}

test('lines of a script that are none are refused in the lines, and the run goes on', async () => {
  const { status, lines } = await done(BYTES, { scripts: ['\u{1f6f0} hold\n0 state 0\n'] });
  assert.deepEqual([status, lines], [0, '1 0 err 2\n1 0 state 0 idle\n1 800 end\n']);
});

test('a file that shrinks while it is read is said, with no end of lines', async () => {
  for (const read of [() => new Uint8Array(5), () => { throw new Error('gone'); }]) {
    /** @type {import('../worker_job.js').Report[]} */
    const reports = [];
    await answer(jobOf({ file: { size: 100 } }), read, (it) => reports.push(it));
    const { status, sentence, text } = reports[0];
    assert.deepEqual([status, text], [ENDING.Read, '']);
    assert.equal(sentence, SENTENCES[ENDING.Read]);
  }
});

test('what is no bank is said', async () => {
  const { status, sentence } = await done(BYTES, { wasm: new Uint8Array([0, 97, 115, 109]) });
  assert.equal(status, ENDING.Bank);
  assert.match(sentence ?? '', /^The receiver bank could not be started \(CompileError: .*\)\.$/);
});

test('both sides name the same endings', () => {
  const source = readFileSync(new URL('../wasm/src/numbers.rs', import.meta.url), 'utf8');
  const named = [...source.matchAll(/^ {4}(\w+) = (\d+),$/gm)].map(([, name, n]) => [name, +n]);
  const ours = Object.entries(ENDING).filter(([, number]) => number < 20);
  assert.deepEqual(named, ours);
  assert.deepEqual(Object.keys(SENTENCES).sort(), Object.values(ENDING).map(String).sort());
});
