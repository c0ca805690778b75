import { test } from 'node:test';
import assert from 'node:assert/strict';

import { KINDS, bitsOf, checkFile, jobOf, kindOf, samplesToRun } from '../recordings.js';
import { Failure } from '../failures.js';
import { python } from './companion.js';
import { tuningOf } from '../sigmf.js';

const ASKED = { kind: 'iq-i16', rate: '2048000', offset: '-5000', bits: '1', threshold: '',
  centre: '', centreQ: '', isSwapped: false, isInverted: false, skip: '', count: '' };

/** @param {Partial<typeof ASKED>} more */
const job = (more) => jobOf({ ...ASKED, ...more });

test('the kinds and their bits are those of the companion', () => {
  const bits = python('import json\nfrom seldomplough.recordings import FORMATS, KINDS\n'
    + 'print(json.dumps({**FORMATS, **KINDS}))', '');
  assert.deepEqual(Object.fromEntries(KINDS.map((it) => [it, bitsOf(it)])), bits);
});

test('what is asked becomes what the bank is told', () => {
  const told = { rate: 2048000, offset: -5000, format: 2, skip: 0, count: null, kind: 3, flags: 1,
    threshold2: 0, centre2: 0, centreQ2: 0 };
  assert.deepEqual(job({}), told);
  assert.deepEqual(job({ isInverted: true }), { ...told, offset: 5000, flags: 5 });
  assert.deepEqual(job({ isSwapped: true, skip: '8', count: '16' }),
    { ...told, flags: 3, skip: 8, count: 16 });
  assert.deepEqual(job({ kind: 'u8', bits: '2', threshold: '12.5' }),
    { ...told, format: 1, kind: 1, flags: 0, threshold2: 25, centre2: 255, centreQ2: 255 });
  assert.deepEqual(job({ kind: 'iq-u8', centre: '127', centreQ: '128' }),
    { ...told, kind: 1, centre2: 254, centreQ2: 256 });
  // Twice the value, of floats too.
  assert.equal(job({ kind: 'iq-f32', bits: '2', threshold: '0.25' }).threshold2, 0.5);
  assert.deepEqual(job({ kind: 'iq2' }), { ...told, format: 3, kind: 0, flags: 0 });
  // A packing of pairs of bits is turned round as the kind that it is too.
  assert.deepEqual(job({ kind: 'iq1', isInverted: true }),
    { ...told, offset: 5000, kind: 9, flags: 5 });
  // Real samples are as they were: the other half of the spectrum is taken.
  assert.deepEqual(job({ kind: 'real1', isInverted: true }),
    { ...told, offset: 5000, format: 0, kind: 0, flags: 0 });
});

test('what is out of range is refused in one sentence', () => {
  const bad = [{ rate: '2045999' }, { rate: '20000001' }, { rate: '' }, { rate: '2.5e6' },
    { rate: 'x' }, { offset: '1024001' }, { offset: '-1024001' }, { offset: '0.5' },
    { kind: 'iq2', isInverted: true }, { kind: 'i64' }, { bits: '2' },
    { bits: '2', threshold: '-1' }, { bits: '2', threshold: '1.25' }, { bits: '2', threshold: 'x' },
    { kind: 'bits1-low', bits: '2', threshold: '1' }, { centre: '1.3' }, { skip: '-1' },
    { count: '0' }, { kind: 'iq-f32', bits: '2', threshold: '1e99' }];
  for (const more of bad) {
    assert.throws(() => job(more), (why) => why instanceof Failure && /^[^\n]+\.$|Measure/.test(
      why.message), JSON.stringify(more));
  }
  assert.equal(job({ offset: '1024000' }).offset, 1024000);
});

test('samples to run are those of the window', () => {
  assert.equal(samplesToRun('iq-i16', 403, { skip: 0, count: null }), 100);
  assert.equal(samplesToRun('real1', 10, { skip: 16, count: null }), 64);
  assert.equal(samplesToRun('real1', 10, { skip: 16, count: 8 }), 8);
  assert.equal(samplesToRun('real1', 1, { skip: 16, count: 8 }), 0);
});

test('a file that is no recording is said', () => {
  const none = new Uint8Array(8), png = Uint8Array.of(0x89, 0x50, 0x4e, 0x47, 13, 10, 26, 10);
  checkFile(8, '', none);
  assert.throws(() => checkFile(0, '', none), /empty/);
  assert.throws(() => checkFile(8, '', png), /a picture/);
  assert.throws(() => checkFile(8, 'text/plain', none), /text\/plain/);
});

test('the end of a name says the kind', () => {
  const names = ['a.real1', 'B.IQ2', 'x.iq-u8', 'radio.c64', 'a.bin', 'real1', 'x.constructor'];
  assert.deepEqual(names.map(kindOf), ['real1', 'iq2', 'iq-u8', 'iq-f32', '', 'real1', '']);
});

const META = { global: { 'core:datatype': 'ci16_le', 'core:sample_rate': 4000000 },
  captures: [{ 'core:sample_start': 0, 'core:frequency': 1575000000 }] };

test('SigMF metadata says what the companion says', () => {
  /** @param {object} global @param {object} [capture] */
  const meta = (global, capture = {}) => JSON.stringify({ global: { ...META.global, ...global },
    captures: [{ ...META.captures[0], ...capture }] });
  const texts = [JSON.stringify(META), meta({ 'core:datatype': 'ri8' }),
    meta({ 'core:datatype': 'cf32_le' }), meta({ 'core:datatype': 'cf64_le' }),
    meta({ 'core:datatype': 'i8' }), meta({ 'core:datatype': '' }),
    meta({ 'core:datatype': 'cconstructor' }), meta({ 'core:sample_rate': 20000001 }),
    meta({ 'core:sample_rate': '4e6' }), meta({ 'core:sample_rate': 4000000.5 }),
    meta({ 'core:num_channels': 2 }), meta({}, { 'core:header_bytes': 4 }),
    meta({}, { 'core:frequency': 1570000000 }), meta({}, { 'core:frequency': null }), '[]', '3',
    '{}', '{"global": {}}', '{"global": [], "captures": []}', '{"global": {}, "captures": []}',
    '{"global": {}, "captures": [1]}'];
  const said = python('import json, sys\nfrom seldomplough.failures import Failure\n'
    + 'from seldomplough.sigmf import options\n'
    + 'def said(text):\n'
    + '    try:\n'
    + '        it = options(text.encode())\n'
    + '    except Failure as why:\n'
    + '        return why.text.replace("pack reads", "is read").replace("pack takes samples alone",'
    + ' "samples alone are taken")\n'
    + '    offset = int(it.receiver[3]) * (-1 if "--minus" in it.receiver else 1)\n'
    + '    return {"kind": it.pack[1], "rate": int(it.receiver[1]), "offset": offset}\n'
    + 'print(json.dumps([said(it) for it in json.load(sys.stdin)]))', JSON.stringify(texts));
  texts.forEach((text, at) => {
    let mine;
    try {
      mine = tuningOf(text);
    } catch (why) {
      assert.ok(why instanceof Failure, text);
      mine = why.message;
    }
    assert.deepEqual(mine, said[at], text);
  });
  assert.throws(() => tuningOf('{'), /isn't JSON/);
});
