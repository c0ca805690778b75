import { test } from 'node:test';
import assert from 'node:assert/strict';

import { Answers, askedOf, checkScripts, sharesOf, split } from '../scripts.js';
import { SEARCH, lengthOf, searches, skyScripts } from '../searches.js';
import { Failure } from '../failures.js';
import { parse } from '../lines.js';
import { textOf } from './companion.js';

test('the bundled search by fours is that of these scripts', () => {
  const search = { bins: 12, periods: 4, threshold: 75, centre: 0 };
  const scripts = searches(search, 0, lengthOf(search, 2046000));
  scripts.forEach((lines, at) => {
    const text = lines.map((it) => `${it}\n`).join('');
    assert.equal(text, textOf(`examples/all32/search_${at + 1}.script`));
  });
});

test('a search of 20 bins over 10 ms is due when the pages of docs say', () => {
  // `356024 acq` at 2.048 MHz in docs/RECORDINGS.md, `356004 acq` at 2.046 MHz in docs/RECIPES.md.
  assert.equal(lengthOf(SEARCH, 2048000), 356024);
  assert.equal(lengthOf(SEARCH, 2046000), 356004);
});

for (const [seconds, rate] of [[0.01, 2046000], [1, 2046000], [20, 2048000], [3600, 20000000]]) {
  test(`the search of ${seconds} s at ${rate} has each satellite once in 10 s`, () => {
    const samples = Math.round(seconds * rate), scripts = skyScripts(rate, samples);
    /** @type {Map<number, number[]>} */
    const begun = new Map();
    for (const script of scripts) {
      let before = 0;
      for (const { words } of askedOf(script)) {
        assert.ok(+words[0] >= before && +words[0] <= samples);
        before = +words[0];
        if (words[1] !== 'acquire') continue;
        begun.set(+words[3], [...(begun.get(+words[3]) ?? []), +words[0]]);
      }
      assert.ok(script.length < 2 ** 24);
    }
    assert.equal(begun.size, 32);
    for (const [satellite, times] of begun) {
      const four = Math.floor((satellite - 1) / 4);
      assert.ok(times[0] <= four * lengthOf(SEARCH, rate), `${satellite}`);
      times.slice(1).forEach((it, at) => assert.equal(it - times[at], 10 * rate));
    }
  });
}

test('in a long recording four are searched for at once', () => {
  const scripts = skyScripts(2048000, 20 * 2048000);
  assert.deepEqual(scripts.map((it) => it.split('\n')[0]),
    searches(SEARCH, 0, 356024).map((it) => it[0]));
});

test('a line -- begins the next client\'s script', () => {
  assert.deepEqual(split('a\nb\n--\nc\n -- \n'), ['a\nb', 'c', '']);
  assert.deepEqual(split(''), ['']);
});

test('shares are a digit for each script, or none', () => {
  assert.deepEqual(sharesOf('', 3), [4, 4, 4]);
  assert.deepEqual(sharesOf(' 81 ', 2), [8, 1]);
  for (const text of ['8', '811', '09', 'ab', '8 1']) {
    assert.throws(() => sharesOf(text, 2), Failure, text);
  }
});

test('nine scripts are refused, and so is one of more than 16 MiB', () => {
  checkScripts(Array(8).fill('0 state 0'));
  assert.throws(() => checkScripts(Array(9).fill('')), /eight scripts/);
  assert.throws(() => checkScripts(['x'.repeat(2 ** 24 + 1)]), /16 MiB/);
});

test('each refusal stands beside its line', () => {
  // The lines and their answers are those of docs/GUIDE.md.
  const script = '0 track 0 5 1250 700\n\n9000000 state 0\nstate 0\n12 state\n';
  const answers = new Answers([script, 'x']);
  for (const text of ['1 0 ok', '2 0 err 3', '1 1801018 bits 0', '1 2128000 end']) {
    answers.feed(parse(text));
  }
  assert.deepEqual(answers.refused.map((it) => [it.client, it.asked.number, it.reason]),
    [[2, 1, 'the first word isn\'t a time, 1 to 13 digits, at most 2^40']]);
  assert.deepEqual([1, 2, 3].map((it) => answers.unanswered(it)), [3, 0, 0]);
});
