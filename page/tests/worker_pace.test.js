// How often a bank that takes long is heard of.

import assert from 'node:assert/strict';
import { mock, test } from 'node:test';
import { PAUSE, Task } from '../worker_task.js';
import { jobOf } from './worker_bank.js';

const MOST = 1 << 14;

/**
 * Has a bank take a file of 256 KiB in rooms of 16 KiB, each byte in so many milliseconds. Gives
 * the times of reports, and how many bytes were given last but one.
 * @param {number} perByte
 */
function taken(perByte) {
  let clock = 0;
  const now = mock.method(performance, 'now', () => clock);
  /** @type {number[]} */
  const times = [0];
  const read = (/** @type {number} */ from, /** @type {number} */ to) => new Uint8Array(to - from);
  const task = new Task(jobOf({ file: { size: 1 << 18 } }), read, (it) => times.push(it.ms));
  task.bank = { memory: new WebAssembly.Memory({ initial: 1 }) };
  const counts = [];
  do {
    counts.push(task.fill(0, MOST));
    clock += perByte * counts[counts.length - 1];
  } while (counts[counts.length - 1]);
  now.mock.restore();
  assert.equal(counts.reduce((sum, it) => sum + it, 0), 1 << 18);
  return { times, given: counts[counts.length - 3] };
}

test('a bank that takes 0.1 ms for a byte is heard of every 0.3 s at least', () => {
  const { times } = taken(0.1);
  const gaps = times.slice(1).map((time, n) => time - times[n]);
  assert.ok(gaps.length > 80, `${gaps.length} reports of 26 s`);
  assert.ok(Math.max(...gaps) <= 3 * PAUSE, `${gaps}`);
});

test('a quick bank is given all that it has room for', () => {
  assert.equal(taken(0.0001).given, MOST);
});
