// The banks and the examples, for tests in Node.

import { readFileSync } from 'node:fs';
import { setFlagsFromString } from 'node:v8';
import { answer } from '../worker_task.js';

const TOP = new URL('../../', import.meta.url);

/** @typedef {import('../worker_job.js').Job} Job */
/** @typedef {import('../worker_job.js').Report} Report */

/** The bytes of a file, by its path from the checkout's top. @param {string} path */
export function fileAt(path) {
  return new Uint8Array(readFileSync(new URL(path, TOP)));
}

/**
 * A bank, which `tools/page` has built and keeps. Node 20 has relaxed operations where it is asked
 * for them, and later ones have them without that word, and may not know it.
 * @param {string} name
 */
export function bankAt(name) {
  const bytes = fileAt(`out/page/${name}.wasm`);
  if (!WebAssembly.validate(bytes)) setFlagsFromString('--experimental-wasm-relaxed-simd');
  return new WebAssembly.Module(bytes);
}

/** The bank for any browser. */
export const BANK = bankAt('bank');

/**
 * A job for the bank over some bytes, as the receiver takes them where nothing else is said.
 * @param {Partial<Job>} more
 * @returns {Job}
 */
export function jobOf(more) {
  const plain = { rate: 2046000, offset: 511500, format: 0, kind: 0, scripts: [''] };
  return { task: 'run', wasm: BANK, file: { size: 0 }, ...plain, ...more };
}

/**
 * Does a job over some bytes. Gives the last report with the lines of all, and all reports.
 * @param {Uint8Array} bytes
 * @param {Partial<Job>} more
 */
export async function done(bytes, more) {
  /** @type {Report[]} */
  const reports = [];
  const job = jobOf({ file: { size: bytes.length }, ...more });
  await answer(job, (from, to) => bytes.subarray(from, to), (report) => reports.push(report));
  const last = reports[reports.length - 1];
  return { ...last, lines: reports.map((it) => it.text).join(''), reports };
}
