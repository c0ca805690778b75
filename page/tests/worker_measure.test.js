// What is suggested for a recording's values: their mean and the root of their mean square.

import assert from 'node:assert/strict';
import { test } from 'node:test';
import { FLAG, FORMAT, KIND } from '../worker_job.js';
import { done } from './worker_bank.js';

/**
 * @param {ArrayBufferView} values
 * @param {number} kind
 * @param {number} [flags]
 */
async function measured(values, kind, flags = 0) {
  const bytes = new Uint8Array(values.buffer);
  const ended = await done(bytes, { task: 'measure', kind, flags, format: FORMAT.real1 });
  const { status, sentence, samples, centre2, centreQ2, threshold2 } = ended;
  assert.deepEqual([status, sentence], [0, '']);
  return { samples, centre2, centreQ2, threshold2 };
}

/** Twice 3 or -3 about twice a centre: the mean square of what is twice a value is 36. */
const about = (/** @type {number} */ centre) => [centre - 3, centre + 3, centre + 3, centre - 3];

test('bytes about 130 have the centre 130 and the threshold 3', async () => {
  const values = new Uint8Array([...about(130), ...about(130)]);
  const wanted = { samples: 8, centre2: 260, centreQ2: 260, threshold2: 6 };
  assert.deepEqual(await measured(values, KIND.u8), wanted);
});

test('a mean between two bytes is a half', async () => {
  const wanted = { samples: 2, centre2: 255, centreQ2: 255, threshold2: 1 };
  assert.deepEqual(await measured(new Uint8Array([127, 128]), KIND.u8), wanted);
});

test('a mean below 0 goes to the nearest half', async () => {
  // The mean is -2.25, and twice it -4.5, between two integers: the greater one is taken.
  const values = new Int8Array([-2, -2, -2, -3]);
  assert.equal((await measured(values, KIND.i8)).centre2, -4);
});

test('each part of pairs has its centre, and the threshold is of both', async () => {
  // Parts about 10 and -20, 3 and 4 from these: the root of (9 + 16) / 2 is 3.54, twice it 7.07.
  const values = new Int16Array([7, -24, 13, -16, 13, -24, 7, -16]);
  const wanted = { samples: 4, centre2: 20, centreQ2: -40, threshold2: 7 };
  assert.deepEqual(await measured(values, KIND.i16, FLAG.paired), wanted);
  const other = { ...wanted, centre2: -40, centreQ2: 20 };
  assert.deepEqual(await measured(values, KIND.i16, FLAG.paired + FLAG.swapped), other);
});

test('floats have the centre 0, and a threshold that is a float', async () => {
  const values = new Float32Array([0.25, -0.25, 0.75, -0.75]);
  const wanted = { samples: 4, centre2: 0, centreQ2: 0 };
  const { threshold2, ...rest } = await measured(values, KIND.f32);
  assert.deepEqual(rest, wanted);
  assert.equal(threshold2, 2 * Math.fround(Math.sqrt(0.3125)));
});

test('the first 1048576 bytes are measured', async () => {
  const values = new Uint8Array((1 << 20) + 8).fill(100);
  values.fill(200, 1 << 20);
  const wanted = { samples: 1 << 20, centre2: 200, centreQ2: 200, threshold2: 0 };
  assert.deepEqual(await measured(values, KIND.u8), wanted);
});

test('a threshold of floats parts sizes as twice its value', async () => {
  // Two values at and above 0.5 in each byte: only that which is farther off is large, the size 3.
  const values = new Float32Array(8 * 2046);
  values.forEach((_, n) => { values[n] = n % 2 ? 0.5 : 0.6; });
  const job = { kind: KIND.f32, format: FORMAT.real2, threshold2: 1, offset: 0 };
  const scripts = ['0 hold 0 1 0 0\n0 counts 0 1\n'];
  const made = await done(new Uint8Array(values.buffer), { ...job, scripts });
  const packed = new Uint8Array(2 * 2046).fill(0b01000100);
  const wanted = await done(packed, { format: FORMAT.real2, offset: 0, scripts });
  assert.equal(made.lines, wanted.lines);
  assert.match(made.lines, /^1 0 ok\n1 0 ok\n1 \d+ count 0 /);
});
