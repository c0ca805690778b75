// What a worker measures of a recording.

import assert from 'node:assert/strict';
import { test } from 'node:test';
import { Failure } from '../failures.js';
import { measured } from '../runs.js';
import { Spoken, install } from './workers.js';

const ENGINE = { wasm: /** @type {any} */ ('the bank'), worker: 'blob:worker' };

test('what is measured is the last report, and the worker ends', async () => {
  install(Spoken, 4);
  const job = { kind: 1, flags: 1, format: 2, file: new Blob(['abc']) };
  const promise = measured(ENGINE, job), [worker] = Spoken.made;
  assert.deepEqual(worker.job, { ...job, task: 'measure', wasm: 'the bank' });
  worker.tells({ at: 50 });
  worker.tells({ at: 100, status: 0, sentence: '', centre2: 255, threshold2: 31 });
  const { centre2, threshold2 } = await promise;
  assert.deepEqual([centre2, threshold2, worker.isEnded], [255, 31, true]);
});

test('what can not be measured is a failure with its sentence', async () => {
  const job = { kind: 1, flags: 1, format: 2, file: new Blob(['abc']) };
  install(Spoken, 4);
  const refused = measured(ENGINE, job);
  Spoken.made[0].tells({ status: 8, sentence: 'It is infinite.' });
  await assert.rejects(refused, new Failure('It is infinite.'));
  const failed = measured(ENGINE, job);
  assert.equal(Spoken.made[1].fails('gone'), true);
  await assert.rejects(failed, new Failure('The bank could not be run.'));
  assert.ok(Spoken.made.every((it) => it.isEnded));
});
