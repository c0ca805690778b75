import { test } from 'node:test';
import assert from 'node:assert/strict';

import { Chosen, Store } from '../store.js';
import { Series } from '../series.js';
import { expected } from './companion.js';
import { parse } from '../lines.js';

/** @param {string[]} texts */
function storeOf(texts) {
  const store = new Store();
  for (const text of texts) store.push(parse(text), text);
  return store;
}

const NO_CHOICE = { client: null, slot: null, kind: '', part: '' };

/** @param {Store} store @param {Partial<import('../store.js').Wanted>} wanted
 * @param {number} most */
function chosen(store, wanted, most = 100) {
  const it = new Chosen(store, { ...NO_CHOICE, ...wanted });
  while (it.look(most));
  return Array.from({ length: it.length }, (_, at) => store.text(it.at(at)));
}

test('lines are kept as they are, over the ends of chunks', () => {
  const texts = Array.from({ length: 10000 }, (_, at) => `${1 + (at % 8)} ${at} lock ${at % 5}`);
  const store = storeOf(texts);
  assert.equal(store.length, 10000);
  assert.deepEqual(chosen(store, {}), texts);
  assert.equal(store.parts().join(''), texts.map((it) => `${it}\n`).join(''));
});

test('lines are chosen by client, slot, kind and a part of their text', () => {
  const texts = expected('all32').split('\n').slice(0, -1), store = storeOf(texts);
  /** @param {Partial<import('../store.js').Wanted>} wanted @param {RegExp} pattern */
  const check = (wanted, pattern) => {
    const found = texts.filter((it) => pattern.test(it));
    assert.ok(found.length > 0 && found.length < texts.length);
    for (const most of [1, 7, 1000]) assert.deepEqual(chosen(store, wanted, most), found);
  };
  check({ client: 5 }, /^5 /);
  check({ slot: 0 }, /^\d+ \d+ (acq|lock|bits|state|sub|eph) 0/);
  check({ kind: 'acq' }, / acq /);
  check({ part: 'found' }, /found/);
  check({ client: 5, slot: 0, kind: 'acq' }, /^5 \d+ acq 0/);
  assert.deepEqual(chosen(store, { kind: 'msg' }), []);
});

test('lines that come later are chosen too', () => {
  const store = storeOf(['1 0 ok']), it = new Chosen(store, { ...NO_CHOICE, kind: 'lock' });
  while (it.look(10));
  assert.equal(it.length, 0);
  store.push(parse('1 5 lock 0'), '1 5 lock 0');
  while (it.look(10));
  assert.deepEqual([it.length, it.at(0)], [1, 1]);
});

test('a series finds times, and its drawing has the least and the greatest', () => {
  const series = new Series(2), rows = 5000;
  for (let at = 0; at < rows; at += 1) series.push(10 * at, at % 100, at === 3210 ? 999 : -at);
  assert.equal(series.find(-5), 0);
  assert.equal(series.find(32100), 3210);
  assert.equal(series.find(32101), 3211);
  assert.equal(series.find(1e9), rows);
  for (const most of [1, 3, 40, 700, 10000]) {
    let calls = 0, least = Infinity, greatest = -Infinity;
    series.thinned(0, rows, 1, most, (_, low, high) => {
      calls += 1;
      least = Math.min(least, low);
      greatest = Math.max(greatest, high);
    });
    assert.deepEqual([least, greatest], [1 - rows, 999]);
    assert.ok(calls <= Math.max(most, 1) && calls <= rows, `${calls} for ${most}`);
  }
});
