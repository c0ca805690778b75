// A stretch of a recording, shares of the slots, and what is left at an end.

import assert from 'node:assert/strict';
import { test } from 'node:test';
import { ENDING, FLAG, FORMAT, KIND } from '../worker_job.js';
import { done, fileAt } from './worker_bank.js';

const REAL = fileAt('examples/three_satellites.real1');
const SCRIPT = '0 hold 0 5 1250 700\n0 counts 0 40\n';

test('skip and count give the lines of the stretch alone', async () => {
  const cut = await done(REAL.subarray(1000, 51000), { scripts: [SCRIPT] });
  const ended = await done(REAL, { scripts: [SCRIPT], skip: 8000, count: 400000 });
  assert.equal(ended.lines, cut.lines);
  assert.equal(ended.lines.split('\n').length, 44);
  assert.deepEqual([ended.samples, ended.at, ended.size], [400000, 50000, 50000]);
});

test('skip and count are of samples of values that are packed', async () => {
  const pairs = new Uint8Array(80000).map((_, n) => (n * n * 7) % 251);
  const centres = { centre2: 255, centreQ2: 255 };
  const job = { kind: KIND.u8, flags: FLAG.paired, format: FORMAT.iq1, ...centres };
  const cut = await done(pairs.subarray(20, 60020), { ...job, scripts: [SCRIPT] });
  const ended = await done(pairs, { ...job, scripts: [SCRIPT], skip: 10, count: 30000 });
  assert.equal(ended.lines, cut.lines);
  assert.equal(ended.samples, 30000);
});

test('a count past the end takes what there is', async () => {
  const ended = await done(REAL, { skip: 8000, count: 2 ** 40 });
  assert.equal(ended.samples, 8 * REAL.length - 8000);
});

test('a share of one slot refuses a second slot, and one of eight has it', async () => {
  const scripts = ['0 state 1\n', '0 state 7\n'];
  const { lines } = await done(REAL.subarray(0, 100), { scripts, shares: [1, 8] });
  assert.equal(lines, '1 0 err 8\n2 0 state 7 idle\n1 800 end\n2 800 end\n');
});

test('samples that fill no byte, and a part of one, are said', async () => {
  const job = { kind: KIND.i16, flags: FLAG.paired, format: FORMAT.iq1 };
  const ended = await done(new Uint8Array(4 * 7 + 1), job);
  assert.deepEqual([ended.status, ended.samples, ended.left], [ENDING.Done, 4, 2 * 3 + 1]);
});
