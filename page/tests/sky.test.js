import { test } from 'node:test';
import assert from 'node:assert/strict';

import { EXAMPLES, companion, expected, python, textOf } from './companion.js';
import { Sky } from '../sky.js';
import { parse } from '../lines.js';
import { triangle } from '../triangle.js';

/** @param {string} text @param {number} [rate] @param {string[]} [scripts] */
function skyOf(text, rate = 2046000, scripts = []) {
  const sky = new Sky(rate, scripts);
  for (const line of text.split('\n').slice(0, -1)) sky.feed(parse(line));
  sky.end();
  return sky;
}

// The states of the companion's `watch`, by the words that it has for them.
/** @type {Record<string, string[]>} */
const WORDS = {
  searching: ['search'], none: ['none'], tracking: ['track', 'track open'], locked: ['track lock'],
  edge: ['track bits'], holding: ['hold'], lost: ['lost'], stopped: ['idle'],
};

const SLOTS = `
import json, sys
from seldomplough.lines import read
from seldomplough.slots import Slots
slots = Slots(2046000)
for line in read(iter([sys.stdin.read()])):
    slots.feed(line)
print(json.dumps([[*place, it.satellite, it.state, it.loops, it.doppler_hz, it.subframe]
    for place, it in sorted(slots.slots.items())]))
`;

for (const name of EXAMPLES) {
  test(`the slots of ${name} do at the end what the companion says`, () => {
    const text = expected(name), sky = skyOf(text), rows = python(SLOTS, text);
    const slots = sky.ordered().filter((it) => it.pass);
    assert.deepEqual(slots.map((it) => [it.client, it.slot]),
      rows.map((/** @type {unknown[]} */ it) => it.slice(0, 2)));
    rows.forEach((/** @type {any[]} */ row, /** @type {number} */ at) => {
      const [, , satellite, state, loops, doppler, subframe] = row;
      const pass = slots[at].pass;
      assert.ok(pass);
      if (satellite !== null) assert.equal(pass.satellite, satellite);
      const said = `${state.replace(/ \d+ %$/, '')} ${loops}`.trim();
      if (state) assert.ok(WORDS[pass.state].includes(said), `${pass.state} for ${said}`);
      if (doppler !== null) assert.equal(pass.shift, doppler);
      const last = slots[at].subframes.at(-1);
      assert.equal(last ? `${last.id}` : '', subframe);
    });
  });
}

test('a run of the bundled message has what its lines say', () => {
  const sky = skyOf(expected('real_message'), 2046000, [textOf('examples/real_message.script')]);
  const [first, second] = sky.ordered();
  assert.deepEqual(first.spans.map((it) => [it.time, it.state]), [[0, 'searching'],
    [81840, 'tracking'], [570010, 'locked'], [1924464, 'edge']]);
  assert.deepEqual(second.spans.map((it) => [it.time, it.state, it.satellite]),
    [[0, 'searching', 22], [81840, 'none', 22]]);
  assert.deepEqual(first.subframes.map((it) => [it.time, it.id, it.failed]),
    [[15957994, 1, 0], [28234009, 2, 0], [40510023, 3, 0]]);
  // The centre of the search is -2000 Hz, and the second state's V is -119860352.
  assert.equal(first.pass?.shift, -119860352 / 65536);
  assert.deepEqual([first.pass?.locked, first.pass?.bits, first.pass?.health],
    [570010, 1924464, 0]);
  assert.deepEqual(sky.pages.map((it) => [it.line.kind, it.pass.satellite]), [['eph', 3]]);
  assert.deepEqual([sky.time, sky.ends, sky.refused], [40920000, 1, 0]);
});

test('a satellite that was lost and found again has two passes', () => {
  // The lines are those of docs/GUIDE.md, a satellite that was lost.
  const text = ['1 0 ok', '1 81840 acq 0 6 found 1 67 2234180', '1 529847 lock 0',
    '1 1556937 bits 0', '1 4092000 err 9', '1 8591076 unlock 0', '1 10227874 lost 0',
    '1 12276000 ok',
    '1 12357840 acq 0 6 none -4 1737 391476', '1 16368000 ok',
    '1 16449840 acq 0 6 found 0 67 1997592', '1 16938767 lock 0', '1 24552000 end', ''].join('\n');
  const script = [0, 4092000, 12276000, 16368000]
    .map((time) => `${time} acquire 0 6 2000 4 4 75\n`).join('');
  const sky = skyOf(text, 2046000, [script]);
  assert.deepEqual(sky.passes.map((it) => [it.begun, it.state, it.shift]),
    [[0, 'lost', 2250], [12276000, 'none', null], [16368000, 'locked', 2000]]);
  assert.equal(sky.passes[0].lost, 10227874);
  assert.equal(sky.passes[0].locked, null);
  assert.deepEqual(sky.answers.refused.map((it) => [it.asked.number, it.reason]),
    [[2, 'the slot isn\'t idle']]);
  // Without the script the same passes are seen from the lines alone.
  assert.deepEqual(skyOf(text).passes.map((it) => it.state), ['lost', 'none', 'locked']);
});

test('a slot that was stopped and given to another satellite is told apart by its script', () => {
  const text = '1 0 ok\n1 9 ok\n1 9 ok\n1 20 state 0 hold 4 1\n1 30 end\n';
  const sky = skyOf(text, 2046000, ['0 track 0 3 100 5\n9 stop 0\n9 hold 0 4 200 6\n20 state 0\n']);
  assert.deepEqual(sky.ordered()[0].spans.map((it) => [it.time, it.state, it.satellite]),
    [[0, 'tracking', 3], [9, 'stopped', 3], [9, 'holding', 4]]);
});

test('a slot whose satellite is named later is of one pass', () => {
  const sky = skyOf('1 5 lock 0\n1 9 state 0 track 3 8 65536 0 lock\n1 12 end\n');
  assert.deepEqual(sky.passes.map((it) => [it.satellite, it.begun, it.shift]), [[3, 5, 1]]);
});

/** Numbers that look like chance, the same in each run. @param {number} seed */
function chance(seed) {
  let state = seed;
  return () => {
    state = (state * 1103515245 + 12345) % 2147483648;
    return state / 2147483648;
  };
}

test('the C/N0 of each second is that of the companion', () => {
  const next = chance(7), rate = 2046000;
  let text = '', time = 0;
  for (let dump = 0; dump < 3500; dump += 1) {
    time += dump === 1700 ? 5 * 2046 : 2045 + Math.floor(3 * next());
    const sum = () => Math.round(150 * (next() + next() + next() - 1.5));
    text += `1 ${time} count 0 ${sum()} ${sum()} ${1000 + sum()} ${sum()} ${sum()} ${sum()}\n`;
  }
  const rows = companion(['cn0'], text).split('\n').filter((it) => /^\d/.test(it));
  const [pass] = skyOf(text, rate).passes;
  assert.equal(pass.density.length, rows.length);
  rows.forEach((row, at) => {
    assert.equal(pass.density.value(at).toFixed(1), row.split(' ')[4], row);
    assert.equal(Math.floor(pass.density.time(at) / rate), Number(row.split(' ')[0]), row);
  });
});

test('slots that hold about a half chip make a triangle', () => {
  const scripts = [[697, 700, 703].map((half, slot) => `0 hold ${slot} 5 1250 ${half}\n`).join('')];
  const sizes = [[90, 92, 560], [1120, 570, 110], [100, 95, 93]];
  let text = '1 0 ok\n1 0 ok\n1 0 ok\n';
  for (let dump = 1; dump <= 4; dump += 1) {
    sizes.forEach(([early, prompt, late], slot) => {
      text += `1 ${2046 * dump} count ${slot} ${early} 0 0 ${-prompt} ${late} 0\n`;
    });
  }
  const points = triangle(skyOf(text, 2046000, scripts).passes);
  // The first dump of each slot is left out. Early is half a chip before, late half a chip after.
  assert.deepEqual(points, [-2, -1.5, -1, -0.5, 0, 0.5, 1, 1.5, 2].map((offset, at) =>
    ({ offset, size: sizes.flat()[at] })));
});
