// One recording after another: what comes late of the first, and the values that came with it.

import assert from 'node:assert/strict';
import { test } from 'node:test';
import { at, openDocument } from './document.js';
import { fileAt } from './worker_bank.js';
import { Spoken, install } from './workers.js';

/** @param {string} name */
const coded = (name) => Buffer.from(fileAt(`out/page/${name}.wasm`)).toString('base64');
const EXAMPLE = { name: 'late', rate: 4092000, offset: 9, format: 0, shares: [4], scripts: ['a'],
  recording: 'late.real1' };
Object.assign(globalThis, { SELDOMPLOUGH: { banks: { bank: coded('bank'),
  relaxed: coded('relaxed') }, worker: '', revision: '', examples: [EXAMPLE] } });
openDocument();
const { Stage } = await import('../stage.js');
const { Brought } = await import('../brought.js');
const { choose } = await import('../files.js');
const { attempt } = await import('../said.js');

/** A stage of a new document, whose workers a test speaks for. */
function opened() {
  install(Spoken, 1);
  openDocument();
  const stage = new Stage();
  [at('kind').value, at('bits').value] = ['real1', '1'];
  return stage;
}

/** @param {string} name */
const file = (name) => new File([new Uint8Array(1000)], name);

/** Lets what waits go on, until a thing holds. @param {() => any} holds */
async function until(holds) {
  for (let turn = 0; !holds(); turn += 1) {
    assert.ok(turn < 2000, 'it does not come to hold');
    await new Promise((resolve) => { setTimeout(resolve, 5); });
  }
}

test('what is brought is taken back, and what the reader gave stays', () => {
  openDocument();
  const brought = new Brought();
  [at('rate').value, at('skip').value] = ['3000000', '8'];
  brought.put('rate', '2048000');
  brought.put('rate', '2046000');
  brought.put('skip', '');
  brought.put('inverted', true);
  assert.deepEqual([at('rate').value, at('skip').value, at('inverted').checked],
    ['2046000', '', true]);
  at('skip').value = '16';
  brought.takeBack();
  assert.deepEqual([at('rate').value, at('skip').value, at('inverted').checked],
    ['3000000', '16', false]);
  at('rate').value = '2046000';
  brought.takeBack();
  assert.equal(at('rate').value, '2046000');
});

test('what was typed over a value that was brought comes back after the next one', () => {
  openDocument();
  const brought = new Brought();
  brought.put('rate', '2048000');
  at('rate').value = '5000000';
  brought.put('rate', '2046000');
  brought.takeBack();
  assert.equal(at('rate').value, '5000000');
});

test('what is measured of a recording is not put beside another one', async () => {
  const stage = opened();
  await choose(stage, [file('a.u8')]);
  const measuring = stage.measure();
  await until(() => Spoken.made.length);
  await choose(stage, [file('b.u8')]);
  Spoken.made[0].tells({ status: 0, threshold2: 9, centre2: 3, centreQ2: 3 });
  await measuring;
  assert.deepEqual([at('threshold').value, at('centre').value], ['', '']);
});

test('an example that comes late takes the place of nothing', async () => {
  const stage = opened();
  /** @type {any} */
  let late;
  document.head.append = (/** @type {any} */ script) => { late = script; };
  const running = stage.runExample(EXAMPLE);
  await choose(stage, [file('b.real1')]);
  /** @type {any} */ (globalThis).bring('late', 'AAAA');
  late.remove = () => {};
  late.onload();
  await running;
  assert.deepEqual([stage.form.recording?.name, Spoken.made.length], ['b.real1', 0]);
  assert.equal(at('rate').value, '2046000');
});

test('a run that was left does not take back what is said of the next file', async () => {
  const stage = opened();
  await choose(stage, [file('a.real1')]);
  at('text').value = '0 state 0';
  await attempt(() => stage.start(false));
  Spoken.made[0].tells({ at: 50, text: '1 0 state 0 idle\n', ms: 10 });
  await attempt(() => choose(stage, [new File([], 'empty.real1')]));
  await new Promise((resolve) => { setTimeout(resolve, 50); });
  assert.equal(at('said').textContent, 'The file is empty.');
  assert.deepEqual([at('far').textContent, stage.session.store.length], ['', 0]);
});

test('lines take the place of a recording, and a wrong rate changes nothing', async () => {
  const stage = opened();
  await choose(stage, [file('a.real1')]);
  at('rate').value = '1';
  await attempt(() => choose(stage, [new File(['1 0 ok\n'], 'b.lines')]));
  assert.match(at('said').textContent, /^The rate/);
  assert.equal(stage.form.recording?.name, 'a.real1');
  assert.match(at('name').textContent, /^a\.real1, /);
});
