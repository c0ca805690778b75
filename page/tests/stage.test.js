// The stage: a recording, the run over it, and what the page says of both.

import assert from 'node:assert/strict';
import { test } from 'node:test';
import { at, openDocument } from './document.js';
import { fileAt } from './worker_bank.js';
import { Spoken, Working, install } from './workers.js';

/** @param {string} path */
const textAt = (path) => new TextDecoder().decode(fileAt(path));
/** @param {string} name */
const coded = (name) => Buffer.from(fileAt(`out/page/${name}.wasm`)).toString('base64');
const EXAMPLE = { name: 'three_satellites', rate: 2046000, offset: 511500, format: 0, shares: [4],
  scripts: [textAt('examples/three_satellites.script')], recording: 'three_satellites.real1' };
// What `tools/page` puts before the page's script.
Object.assign(globalThis, { SELDOMPLOUGH: { banks: { bank: coded('bank'),
  relaxed: coded('relaxed') }, worker: '', revision: '', examples: [EXAMPLE] } });
openDocument();
const { Stage } = await import('../stage.js');
const { attempt } = await import('../said.js');

/** A stage of a new document, with workers of a kind. @param {typeof Spoken} kind */
function opened(kind) {
  install(kind, 1);
  openDocument();
  const stage = new Stage();
  // What a browser chooses of options where nobody has: the first.
  [at('kind').value, at('bits').value] = ['real1', '1'];
  return stage;
}

/**
 * Takes lines as the page does, until a thing holds.
 * @param {any} stage
 * @param {() => any} holds
 */
async function until(stage, holds) {
  for (let turn = 0; !holds(); turn += 1) {
    assert.ok(turn < 2000, 'it does not come to hold');
    stage.session.pump(25);
    await new Promise((resolve) => { setTimeout(resolve, 5); });
  }
}

/** Whether the page says that all is done. */
const isDone = () => at('far').dataset.done === 'true';
/** @param {any} stage */
const linesOf = (stage) => stage.session.store.parts().join('');

/**
 * Chooses a recording, zeros where none is given, and a script.
 * @param {any} stage
 * @param {string} script
 */
function chosen(stage, script, bytes = new Uint8Array(1000)) {
  stage.form.choose(new File([bytes], 'zeros.real1'));
  at('text').value = script;
}

test('nothing runs without a recording', async () => {
  const stage = opened(Spoken);
  await attempt(() => stage.start(false));
  assert.equal(at('said').textContent, 'Choose a recording first, or an example.');
  assert.equal(Spoken.made.length, 0);
});

test('what is no recording, or is gone, is said before anything runs', async () => {
  const stage = opened(Spoken);
  chosen(stage, '', Uint8Array.of(0x89, 0x50, 0x4e, 0x47));
  await attempt(() => stage.start(false));
  assert.equal(at('said').textContent, 'This is no recording of samples, but a picture.');
  const gone = { name: 'gone.real1', size: 9,
    slice: () => ({ arrayBuffer: () => Promise.reject(new Error('gone')) }) };
  stage.form.choose(/** @type {any} */ (gone));
  await attempt(() => stage.start(false));
  assert.equal(at('said').textContent, 'The file could not be read: it was changed or removed.');
  assert.equal(Spoken.made.length, 0);
});

test('an example runs by the bank, and its lines are those that are expected', async () => {
  const stage = opened(Working), recording = fileAt(`examples/${EXAMPLE.recording}`);
  document.head.append = (/** @type {any} */ script) => {
    const text = Buffer.from(recording).toString('base64');
    /** @type {any} */ (globalThis).bring('three_satellites', text);
    script.remove = () => {};
    script.onload();
  };
  await attempt(() => stage.runExample(EXAMPLE));
  await until(stage, isDone);
  assert.equal(linesOf(stage), textAt('examples/three_satellites.expected'));
  assert.deepEqual([at('said').textContent, at('bar').value], ['', 1]);
  assert.ok(at('stop').disabled);
});

test('how far a run is, and how fast, is said in seconds of the recording', async () => {
  const stage = opened(Spoken);
  chosen(stage, '0 state 0', new Uint8Array(511500));
  await attempt(() => stage.start(false));
  const [worker] = Spoken.made;
  assert.equal(at('stop').disabled, false);
  // Half of 511,500 bytes are 2,046,000 samples: a second, which took a tenth of one.
  worker.tells({ at: 255750, size: 511500, ms: 100 });
  assert.equal(at('far').textContent, '1.0 of 2.0 s, 10 × real time');
  assert.equal(at('bar').value, 0.5);
  assert.ok(!isDone());
  worker.tells({ at: 511500, size: 511500, ms: 400, status: 0, text: '1 0 state 0 idle\n' });
  await until(stage, isDone);
  assert.equal(at('far').textContent, '2.0 of 2.0 s, 5.0 × real time');
  assert.equal(at('heard').textContent, 'Done: 2.0 of 2.0 s, 5.0 × real time');
});

test('lines that are refused are counted, and have their reasons beside them', async () => {
  const stage = opened(Working);
  chosen(stage, 'junk\n0 state 0\n0 fly 0');
  await attempt(() => stage.start(false));
  await until(stage, isDone);
  assert.equal(at('said').textContent, 'Lines that were refused: 2.');
  assert.deepEqual(at('refusals').textContent.split('\n'), ['the first word isn\'t a time, 1 to 13'
    + ' digits, at most 2^40', '', 'no verb, or an unknown one', '']);
  assert.equal(at('scripts').open, true);
});

test('a search runs eight scripts of its own, whatever the form has', async () => {
  const stage = opened(Spoken);
  chosen(stage, 'junk', new Uint8Array(1000000));
  at('shares').value = '9';
  await attempt(() => stage.start(true));
  const { job } = Spoken.made[0], asked = job.scripts.join('').matchAll(/ acquire [0-3] (\d+) /g);
  const found = [...asked].map((/** @type {any} */ it) => Number(it[1]));
  assert.deepEqual([...new Set(found)], Array.from({ length: 32 }, (_, n) => n + 1));
  assert.deepEqual(job.shares, Array(8).fill(4));
});

test('a run that is stopped keeps its lines, and says so', async () => {
  const stage = opened(Spoken);
  chosen(stage, '0 state 0');
  await attempt(() => stage.start(false));
  Spoken.made[0].tells({ at: 50, text: '1 0 state 0 idle\n', ms: 10 });
  stage.stop();
  await until(stage, isDone);
  assert.ok(Spoken.made[0].isEnded);
  assert.equal(linesOf(stage), '1 0 state 0 idle\n');
  assert.match(at('far').textContent, /, stopped$/);
  assert.equal(at('stop').disabled, true);
});

test('what comes late of a run that another took the place of is left out', async () => {
  const stage = opened(Spoken);
  chosen(stage, '0 state 0');
  await attempt(() => stage.start(false));
  const [first] = Spoken.made, { session } = stage;
  first.tells({ at: 50, text: '1 0 state 0 idle\n', ms: 10 });
  let asked = 0;
  // Nobody takes the lines of one that is left, so nothing may wait until they are taken.
  Object.defineProperty(session, 'isBusy', { get: () => (asked += 1) < 20 });
  chosen(stage, '0 state 1');
  await attempt(() => stage.start(false));
  first.tells({ status: 0, text: '1 9 end\n', sentence: 'It is late.' });
  assert.ok(first.isEnded);
  Spoken.made[1].tells({ at: 100, status: 0, text: '1 0 state 1 idle\n1 8000 end\n' });
  await until(stage, isDone);
  assert.equal(linesOf(stage), '1 0 state 1 idle\n1 8000 end\n');
  assert.equal(at('said').textContent, '');
  await new Promise((resolve) => { setTimeout(resolve, 200); });
  assert.ok(asked < 3, `it waits for lines of the one before: ${asked}`);
});

test('of two runs that are begun at once the later one runs', async () => {
  const stage = opened(Spoken);
  chosen(stage, '0 state 0');
  await Promise.all([stage.start(false), stage.start(false)]);
  assert.equal(Spoken.made.length, 1);
});

test('what the bank can not do, and what it leaves out, is said at the end', async () => {
  for (const [report, said] of /** @type {[object, string][]} */ ([
    [{ status: 4, sentence: 'It is gone.' }, 'It is gone.'],
    [{ status: 0, left: 1 }, 'Left out at the end: a part of a sample.'],
    [{ status: 0, text: '1 0 Ok\n' },
      'The lines can’t be read: line 1 isn\'t one that the receiver prints: 1 0 Ok.'],
  ])) {
    const stage = opened(Spoken);
    chosen(stage, '0 state 0');
    await attempt(() => stage.start(false));
    Spoken.made[0].tells(report);
    await until(stage, isDone);
    assert.equal(at('said').textContent, said);
  }
});

test('what is measured goes into its fields', async () => {
  const stage = opened(Working);
  stage.form.choose(new File([Uint8Array.of(100, 110, 120, 130)], 'a.u8'));
  at('bits').value = '2';
  await attempt(() => stage.measure());
  assert.equal(at('said').textContent, '');
  // The mean of the bytes.
  assert.equal(at('centre').value, '115');
  assert.ok(Number(at('threshold').value) > 0);
});
