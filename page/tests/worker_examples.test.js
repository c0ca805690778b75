// The examples give their lines by both banks, as files and as values of another kind.

import assert from 'node:assert/strict';
import { test } from 'node:test';
import { FLAG, FORMAT, KIND } from '../worker_job.js';
import { PAUSE, answer } from '../worker_task.js';
import { PIECE } from '../worker_stretch.js';
import { BANK, bankAt, done, fileAt, jobOf } from './worker_bank.js';

/** @param {string} path */
const textAt = (path) => new TextDecoder().decode(fileAt(`examples/${path}`));
const EIGHT = [1, 2, 3, 4, 5, 6, 7, 8];

/**
 * The recording of an example, and its settings, by its file of options.
 * @param {string} name
 */
function optionsOf(name) {
  const words = textAt(`${name}.options`).trim().split(' ');
  /** @param {string} option */
  const after = (option) => words[words.indexOf(option) + 1];
  const offset = words.includes('--offset') ? Number(after('--offset')) : 0;
  return {
    bytes: fileAt(`examples/${after('<')}`),
    rate: words.includes('--rate') ? Number(after('--rate')) : 2046000,
    offset: words.includes('--minus') ? -offset : offset,
    format: words.includes('--format') ? FORMAT[/** @type {'iq1'} */ (after('--format'))] : 0,
  };
}

/**
 * @param {string} name
 * @param {ReturnType<typeof optionsOf> & { wasm: WebAssembly.Module }} options
 * @param {string[]} scripts
 */
async function compare(name, { bytes, ...settings }, scripts) {
  const ended = await done(bytes, { ...settings, scripts });
  assert.equal(ended.lines, textAt(`${name}.expected`));
  const { status, sentence, samples, left, at, size } = ended;
  const [perByte, all] = [[8, 4, 4, 2][settings.format], bytes.length];
  const wanted = { status: 0, sentence: '', samples: perByte * all, left: 0, at: all, size: all };
  assert.deepEqual({ status, sentence, samples, left, at, size }, wanted);
}

const ALONE = ['three_satellites', 'real_message', 'zero_if', 'crystal', 'hold_counts'];
/** @type {[string, WebAssembly.Module][]} */
const BANKS = [['any browser', BANK], ['relaxed operations', bankAt('relaxed')]];
for (const [of, wasm] of BANKS) {
  for (const name of [...ALONE, 'track_message']) {
    test(`${name} gives the lines that are expected, by the bank for ${of}`, () =>
      compare(name, { ...optionsOf(name), wasm }, [textAt(`${name}.script`)]));
  }

  test(`all32, eight clients, gives the lines that are expected, by the bank for ${of}`, () => {
    const scripts = EIGHT.map((n) => textAt(`all32/search_${n}.script`));
    return compare('all32', { ...optionsOf('three_satellites'), wasm }, scripts);
  });

  test(`busy_bank, 32 slots, gives the lines that are expected, by the bank for ${of}`, () => {
    const scripts = EIGHT.map((n) => textAt(`busy_bank/client_${n}.script`));
    const zeros = { bytes: new Uint8Array(90000), rate: 2046000, offset: 0, format: FORMAT.real1 };
    return compare('busy_bank', { ...zeros, wasm }, scripts);
  });
}

test('lines come while it runs, a report for each pause', async () => {
  const { bytes, ...settings } = optionsOf('real_message');
  const scripts = [textAt('real_message.script')];
  const job = jobOf({ ...settings, file: { size: bytes.length }, scripts });
  const clock = new Int32Array(new SharedArrayBuffer(4));
  /** @type {import('../worker_job.js').Report[]} */
  const reports = [];
  await answer(job, (from, to) => {
    Atomics.wait(clock, 0, 0, PAUSE);
    return bytes.subarray(from, to);
  }, (report) => reports.push(report));
  const pieces = Math.ceil(bytes.length / PIECE);
  assert.ok(reports.length >= pieces, `${reports.length} reports of ${pieces} pieces`);
  const times = reports.map((it) => it.at);
  assert.deepEqual(times, [...times].sort((a, b) => a - b));
  assert.deepEqual(reports.map((it) => it.status).filter((it) => it !== undefined), [0]);
  assert.ok(reports.filter((it) => it.text).length > 2);
  assert.equal(reports.map((it) => it.text).join(''), textAt('real_message.expected'));
});

test('numbers of 16 bits give the lines of the packing that they are made of', async () => {
  const packed = fileAt('examples/three_satellites.real1');
  const values = new Int16Array(8 * packed.length);
  packed.forEach((byte, n) => {
    for (let k = 0; k < 8; k++) values[8 * n + k] = (byte >> (7 - k)) & 1 ? -300 : 300;
  });
  const bytes = new Uint8Array(values.buffer);
  const scripts = [textAt('three_satellites.script')];
  const ended = await done(bytes, { scripts, kind: KIND.i16 });
  assert.equal(ended.lines, textAt('three_satellites.expected'));
  assert.equal(ended.samples, values.length);
});

test('pairs that are a mirrored spectrum give the same lines by their conjugate', async () => {
  // Pairs of bits, the earliest high: each part in quadrature is turned here.
  const mirrored = fileAt('examples/crystal.iq1').map((byte) => byte ^ 0x55);
  const ended = await done(mirrored, {
    rate: 2048055,
    offset: -42064,
    format: FORMAT.iq1,
    kind: KIND['bits1-high'],
    flags: FLAG.paired + FLAG.conjugate,
    scripts: [textAt('crystal.script')],
  });
  assert.equal(ended.lines, textAt('crystal.expected'));
});
