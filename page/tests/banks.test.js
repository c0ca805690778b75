// Which of the two banks is run.

import assert from 'node:assert/strict';
import { test } from 'node:test';
import { fittest } from '../banks.js';
import { bankAt, fileAt } from './worker_bank.js';

// A module without a thing in it, and one of a version that there isn't.
const [EMPTY, OTHER] = [1, 9].map((version) => Uint8Array.of(0, 97, 115, 109, version, 0, 0, 0));

// The beginning of the relaxed look-up, i8x16.relaxed_swizzle.
const LOOK_UP = Buffer.of(0xfd, 0x80, 0x02);

test('the quicker bank is run where it is valid', () => {
  assert.equal(fittest({ bank: OTHER, relaxed: EMPTY }), EMPTY);
});

test('the bank for any browser is run where the quicker one is not valid', () => {
  assert.equal(fittest({ bank: EMPTY, relaxed: OTHER }), EMPTY);
});

test('one bank looks up by the relaxed operation, and the other does not have it', () => {
  const found = ['bank', 'relaxed'].map((name) =>
    Buffer.from(fileAt(`out/page/${name}.wasm`)).includes(LOOK_UP));
  assert.deepEqual(found, [false, true]);
});

test('both banks ask for and give the same', () => {
  const [bank, relaxed] = ['bank', 'relaxed'].map(bankAt);
  assert.deepEqual(WebAssembly.Module.imports(bank), WebAssembly.Module.imports(relaxed));
  assert.deepEqual(WebAssembly.Module.exports(bank), WebAssembly.Module.exports(relaxed));
});
