import { test } from 'node:test';
import assert from 'node:assert/strict';

import { absentText } from '../sky_table.js';
import { expected, textOf } from './companion.js';
import { Session } from '../session.js';
import { View } from '../view.js';
import { pageOptions } from '../page_table.js';
import { shownSlots } from '../timeline.js';

/** @param {string} text @param {string[]} [scripts] @param {number} [size] of the pieces */
function sessionOf(text, scripts = [], size = 1000) {
  const session = new Session(2046000, scripts);
  for (let at = 0; at < text.length; at += size) session.bring(text.slice(at, at + size));
  while (session.isBusy) session.pump(1);
  return session;
}

test('lines that come in pieces are those of the file', () => {
  for (const size of [1, 30, 1e6]) {
    const session = sessionOf(expected('busy_bank'), [], size);
    assert.equal(session.end(), '');
    assert.equal(session.store.parts().join(''), expected('busy_bank'));
    assert.equal(session.store.length, 72);
  }
});

test('a pump stops in time, and goes on later', () => {
  const session = new Session(2046000, []), line = '1 5 lock 0\n';
  for (let at = 0; at < 40; at += 1) session.bring(line.repeat(20000));
  const began = performance.now();
  assert.equal(session.pump(5), true);
  assert.ok(performance.now() - began < 500);
  assert.equal(session.isBusy, true);
  while (session.isBusy) session.pump(100);
  assert.equal(session.store.length, 800000);
});

test('after a text that is no line the lines before it stay', () => {
  const session = sessionOf('1 0 ok\n1 5 lock 0\nhello\n1 9 lost 0\n');
  assert.equal(session.end(), 'line 3 isn\'t one that the receiver prints: hello');
  assert.deepEqual([session.store.length, session.sky.time], [2, 5]);
});

test('a search says who is absent, and shows the slots that found someone', () => {
  const scripts = [1, 2, 3, 4, 5, 6, 7, 8].map((it) =>
    textOf(`examples/all32/search_${it}.script`));
  const { sky } = sessionOf(expected('all32'), scripts);
  // Those that docs/GUIDE.md and the recording's name have are found: 5, 17 and 29.
  const shown = shownSlots(sky).map((it) => it.pass?.satellite);
  for (const satellite of [5, 17, 29]) assert.ok(shown.includes(satellite));
  const absent = /^Not found: ([\d, ]+)\./.exec(absentText(sky))?.[1].split(', ').map(Number) ?? [];
  assert.deepEqual([...shown, ...absent].sort((a, b) => Number(a) - Number(b)),
    Array.from({ length: 32 }, (_, at) => at + 1));
});

test('a search that is under way says how many of its cells are done', () => {
  const { sky } = sessionOf('1 0 ok\n1 9 state 0 acquire 7 50 200\n', ['0 acquire 0 7 0 4 4 60\n']);
  assert.equal(absentText(sky), 'Searching: 7 (25 %).');
  assert.equal(shownSlots(sky).length, 1);
});

test('the pages of a message are chosen from by satellite and kind', () => {
  const { sky } = sessionOf(expected('real_message'));
  assert.deepEqual(pageOptions(sky), [['eph 3 1.0', 'Clock and ephemeris, PRN 3 (1.0)']]);
});

test('the view zooms about a place, moves within the whole, and follows what comes', () => {
  const view = new View();
  view.extend(1000);
  assert.deepEqual([view.from, view.to], [0, 1000]);
  view.zoom(0.5, 0.25);
  assert.deepEqual([view.from, view.to], [125, 625]);
  view.move(1);
  assert.deepEqual([view.from, view.to], [500, 1000]);
  view.move(-5);
  assert.deepEqual([view.from, view.to], [0, 500]);
  view.extend(2000);
  assert.deepEqual([view.from, view.to], [0, 500]);
  view.zoom(8);
  view.extend(3000);
  assert.deepEqual([view.from, view.to], [0, 3000]);
});
