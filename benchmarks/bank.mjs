#!/usr/bin/env node
// Runs the bank of the page, as WebAssembly in Node, as `receiver` would run it:
//   bank.mjs [--bank NAME] [--timed] [--rate HZ] [--offset HZ] [--format F] [--shares DIGITS]
//       SCRIPT.. < SAMPLES > LINES
// tools/page has to have built it. What it does is the worker's work; benchmarks/run times it. The
// bank is `bank`, for any browser, or `relaxed`. With --timed it runs twice, and says on standard
// error how many seconds of the processor, of the user and the system, the second time took: so
// neither Node's start nor what V8 compiles is in them.

import { readFileSync, writeSync } from 'node:fs';
import { parseArgs } from 'node:util';
import { bankAt } from '../page/tests/worker_bank.js';
import { FORMAT } from '../page/worker_job.js';
import { answer } from '../page/worker_task.js';

const text = { type: /** @type {const} */ ('string') };
const { values, positionals } = parseArgs({
  allowPositionals: true,
  options: {
    bank: text,
    timed: { type: /** @type {const} */ ('boolean') },
    rate: text,
    offset: text,
    format: text,
    shares: text,
  },
});
const samples = new Uint8Array(readFileSync(0));
const scripts = positionals.map((path) => readFileSync(path, 'latin1'));
const digits = values.shares ?? '4'.repeat(scripts.length);

/** @type {import('../page/worker_job.js').Job} */
const job = {
  task: 'run',
  wasm: bankAt(values.bank ?? 'bank'),
  file: { size: samples.length },
  rate: Number(values.rate ?? 2046000),
  offset: Number(values.offset ?? 0),
  format: FORMAT[/** @type {keyof typeof FORMAT} */ (values.format ?? 'real1')],
  kind: 0,
  scripts,
  shares: [...digits].map(Number),
};

/**
 * Runs it, with what takes its lines.
 * @param {(text: string) => void} write
 */
function run(write) {
  return answer(job, (from, to) => samples.subarray(from, to), (report) => {
    write(report.text);
    if (report.sentence) {
      console.error(report.sentence);
      process.exitCode = 1;
    }
  });
}

if (values.timed) await run(() => {});
const before = process.cpuUsage();
await run((text) => writeSync(1, text));
if (values.timed) {
  const { user, system } = process.cpuUsage(before);
  console.error(user / 1e6, system / 1e6);
}
