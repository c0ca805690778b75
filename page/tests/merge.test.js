import { test } from 'node:test';
import assert from 'node:assert/strict';

import { EXAMPLES, expected } from './companion.js';
import { Failure } from '../failures.js';
import { Merger } from '../merge.js';

/** The lines of some clients of a run, with numbers from 1. @param {string[]} lines
 * @param {number} before @param {number} clients */
function part(lines, before, clients) {
  return lines.flatMap((line) => {
    const client = Number(line.split(' ', 1)[0]) - before;
    return client >= 1 && client <= clients ? [`${client}${line.slice(line.indexOf(' '))}`] : [];
  });
}

/** @param {string} text @param {number} each @param {number} size of the pieces that come */
function merged(text, each, size) {
  const lines = text.split('\n').slice(0, -1);
  const clients = Math.max(...lines.map((it) => Number(it.split(' ', 1)[0])));
  const before = Array.from({ length: Math.ceil(clients / each) }, (_, at) => each * at);
  const merger = new Merger(before), out = [], rests = before.map((it) =>
    part(lines, it, each).map((line) => `${line}\n`).join(''));
  while (rests.some((it) => it)) {
    rests.forEach((rest, at) => {
      // Some workers are faster than others.
      const piece = rest.slice(0, size * (at + 1));
      merger.push(at, piece);
      rests[at] = rest.slice(piece.length);
      if (!rests[at]) merger.pass(at, Infinity);
      out.push(...merger.take());
    });
  }
  assert.equal(merger.rest(), '');
  return out.map((it) => `${it}\n`).join('');
}

for (const name of EXAMPLES) {
  test(`the lines of ${name} are the same however many workers print them`, () => {
    for (const each of [1, 2, 3, 8]) {
      for (const size of [5, 100, 1e6]) {
        assert.equal(merged(expected(name), each, size), expected(name), `${each} ${size}`);
      }
    }
  });
}

test('no line comes before all workers have passed its time', () => {
  const merger = new Merger([0, 1]);
  merger.push(0, '1 5 lock 0\n1 9 ok\n');
  assert.deepEqual(merger.take(), []);
  merger.pass(1, 6);
  assert.deepEqual(merger.take(), ['1 5 lock 0']);
  merger.push(1, '1 9 bits 0\n');
  merger.pass(0, 10);
  merger.pass(1, 10);
  assert.deepEqual(merger.take(), ['2 9 bits 0', '1 9 ok']);
});

test('a text that is no line doesn\'t fill the memory', () => {
  assert.throws(() => new Merger([0]).push(0, 'x'.repeat(5000)), Failure);
});
