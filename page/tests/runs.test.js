// Runs: how clients are divided among workers, what the page hears, and how a run ends.

import assert from 'node:assert/strict';
import { test } from 'node:test';
import { Run } from '../runs.js';
import { bankAt, fileAt } from './worker_bank.js';
import { Spoken, Working, install } from './workers.js';

const JOB = { rate: 2046000, offset: 511500, format: 0, skip: 0, count: null, kind: 0, flags: 0,
  threshold2: 0, centre2: 0, centreQ2: 0 };
const ENGINE = { wasm: /** @type {any} */ ('the bank'), worker: 'blob:worker' };
// The characters that a run may bring, as docs/PAGE.md has them.
const MOST = 268435456;

/**
 * Starts a run over zeros, and gives it with all that is heard of it.
 * @param {string[]} scripts
 * @param {{ engine?: any, file?: Blob, shares?: number[] }} [more]
 */
function started(scripts, { engine = ENGINE, file = new Blob(['abc']), shares } = {}) {
  /** @type {{ text: string, far: number[][], over: unknown[][] }} */
  const heard = { text: '', far: [], over: [] };
  const what = { file, kind: 'real1', scripts, shares: shares ?? scripts.map(() => 4) };
  /** @type {() => void} */
  let end = () => {};
  const over = new Promise((resolve) => { end = () => resolve(null); });
  const run = new Run(engine, JOB, what, {
    lines: (text) => { heard.text += text; },
    progress: (...numbers) => { heard.far.push(numbers); },
    over: (...words) => {
      heard.over.push(words);
      end();
    },
  });
  return { run, heard, over, workers: Spoken.made };
}

/** Lets a run take what came. */
const taken = () => new Promise((resolve) => { setTimeout(resolve, 50); });

for (const [scripts, processors, parts] of /** @type {[number, number, number[]][]} */ ([
  [8, 8, [2, 2, 2, 2]], [8, 2, [4, 4]], [5, 4, [2, 2, 1]], [3, 16, [1, 1, 1]], [8, 3, [3, 3, 2]],
  [1, 4, [1]], [2, 0, [2]],
])) {
  test(`${scripts} clients on ${processors} processors are divided as ${parts}`, () => {
    install(Spoken, processors);
    const names = Array.from({ length: scripts }, (_, at) => `script ${at + 1}`);
    const shares = names.map((_, at) => at + 1), file = new Blob(['abc']);
    const { workers } = started(names, { file, shares });
    assert.deepEqual(workers.map((it) => it.job.scripts.length), parts);
    assert.deepEqual(workers.flatMap((it) => it.job.scripts), names);
    assert.deepEqual(workers.flatMap((it) => it.job.shares), shares);
    for (const { address, job } of workers) {
      assert.deepEqual([address, job.wasm, job.task, job.file], ['blob:worker', 'the bank', 'run',
        file]);
      assert.deepEqual([job.rate, job.offset, job.count], [2046000, 511500, null]);
    }
  });
}

test('lines of two workers come in order, with the numbers of all clients', async () => {
  install(Spoken, 2);
  const { heard, over, workers } = started(['', '']);
  workers[0].tells({ at: 50, text: '1 5 lock 0\n1 9 ok\n', ms: 30 });
  await taken();
  assert.equal(heard.text, '');
  workers[1].tells({ at: 100, text: '1 7 lock 0\n1 800 end\n', ms: 40, status: 0 });
  await taken();
  assert.equal(heard.text, '1 5 lock 0\n2 7 lock 0\n');
  assert.deepEqual(heard.far[heard.far.length - 1], [400, 0.5, 40]);
  workers[0].tells({ at: 100, text: '1 800 end\n', ms: 60, status: 0 });
  await over;
  assert.equal(heard.text, '1 5 lock 0\n2 7 lock 0\n1 9 ok\n1 800 end\n2 800 end\n');
  assert.deepEqual(heard.far[heard.far.length - 1], [800, 1, 60]);
  assert.deepEqual(heard.over, [['', '', false]]);
  assert.ok(workers.every((it) => it.isEnded));
});

for (const [left, sentence] of /** @type {[number, string][]} */ ([
  [0, ''], [1, 'Left out at the end: a part of a sample.'],
  [6, 'Left out at the end: samples that fill no byte: 3.'],
  [7, 'Left out at the end: samples that fill no byte: 3, and a part of a sample.'],
])) {
  test(`${left} as what is left says "${sentence}"`, async () => {
    install(Spoken, 1);
    const { heard, over, workers } = started(['']);
    workers[0].tells({ status: 0, left });
    await over;
    assert.deepEqual(heard.over, [['', sentence, false]]);
  });
}

test('a worker that can not go on ends the run, and what came is shown', async () => {
  install(Spoken, 2);
  const { heard, over, workers } = started(['', '']);
  workers[0].tells({ text: '1 5 lock 0\n' });
  workers[1].tells({ text: '1 3 lock 0\n', status: 4, sentence: 'It is gone.' });
  await over;
  workers[0].tells({ text: '1 9 lost 0\n', status: 0 });
  await taken();
  assert.equal(heard.text, '2 3 lock 0\n1 5 lock 0\n');
  assert.deepEqual(heard.over, [['It is gone.', '', false]]);
  assert.ok(workers.every((it) => it.isEnded));
});

test('a worker that fails ends the run by a sentence, after what came', async () => {
  for (const [message, why] of [['no memory', 'no memory'], ['', 'its worker failed']]) {
    install(Spoken, 1);
    const { heard, over, workers } = started(['']);
    workers[0].tells({ text: '1 5 lock 0\n' });
    assert.equal(workers[0].fails(message), true);
    await over;
    assert.equal(heard.text, '1 5 lock 0\n');
    assert.deepEqual(heard.over, [[`The bank could not be run (${why}).`, '', false]]);
  }
});

test('a run that is stopped keeps what came, and hears nothing more', async () => {
  install(Spoken, 1);
  const { run, heard, over, workers } = started(['']);
  workers[0].tells({ text: '1 5 lock 0\n1 6' });
  workers[0].tells({ text: ' bits 0\n' });
  run.stop();
  assert.ok(workers[0].isEnded);
  workers[0].tells({ text: '1 9 lost 0\n' });
  await over;
  run.stop();
  await taken();
  assert.equal(heard.text, '1 5 lock 0\n1 6 bits 0\n');
  assert.deepEqual(heard.over, [['', '', true]]);
});

test('a text that no receiver prints ends the run by a sentence', async () => {
  install(Spoken, 1);
  const { heard, over, workers } = started(['']);
  workers[0].tells({ text: `1 5 lock 0\n${'x'.repeat(5000)}` });
  await over;
  assert.match(String(heard.over[0][0]), /^no line is so long: x+\.\.\.$/);
});

test('more than 2^28 characters of lines end the run, and all that came are shown', async () => {
  install(Spoken, 1);
  const { run, over, workers } = started(['']);
  // What counts are characters, so there are few lines here, and long ones.
  const line = `1 5 ${'x'.repeat(1019)}\n`, text = line.repeat(1024), { length } = text;
  let came = 0;
  run.hears.lines = (more) => { came += more.length; };
  /** @type {unknown[]} */
  let ended = [];
  const { over: last } = run.hears;
  run.hears.over = (...words) => {
    ended = words;
    last(...words);
  };
  assert.equal(length, MOST / 256);
  for (let at = 0; at < 256; at += 1) workers[0].tells({ text });
  assert.equal(workers[0].isEnded, false);
  workers[0].tells({ text: '1 6 ok\n' });
  assert.equal(workers[0].isEnded, true);
  workers[0].tells({ text });
  await over;
  assert.equal(came, MOST + '1 6 ok\n'.length);
  assert.deepEqual(ended, ['These are more lines than a page can hold, and the run was ended. What'
    + ' came before is shown: ask for fewer dumps, or run the program receiver.', '', false]);
});

test('all32 by one to four workers gives the lines that are expected', async () => {
  const text = (/** @type {string} */ path) => new TextDecoder().decode(fileAt(`examples/${path}`));
  const scripts = [1, 2, 3, 4, 5, 6, 7, 8].map((it) => text(`all32/search_${it}.script`));
  const file = new Blob([fileAt('examples/three_satellites.real1')]);
  for (const processors of [1, 2, 4]) {
    install(Working, processors);
    const engine = { wasm: bankAt('bank'), worker: '' };
    const { heard, over } = started(scripts, { engine, file });
    await over;
    assert.equal(heard.text, text('all32.expected'));
    assert.deepEqual(heard.over, [['', '', false]]);
  }
});
