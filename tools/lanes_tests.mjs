// Runs the tests of lanes that are built for WebAssembly: node lanes_tests.mjs FILE..
// A test that fails ends all by a trap. To see that they run, they are run once more with each sum
// of bytes as a difference, and with each look-up as another operation, which have to end so.

import { readFileSync } from 'node:fs';
import { basename } from 'node:path';
import { setFlagsFromString } from 'node:v8';

/** Instructions, as bytes. Those that are put in the place of others are as long. */
const [SUM, DIFFERENCE] = [
  [0xfd, 0x6e],
  [0xfd, 0x71],
];
/** `i8x16.swizzle`, and the relaxed one with a relaxed product of numbers of 16 bits. */
const LOOK_UP = [0xfd, 0x0e];
const [RELAXED_LOOK_UP, RELAXED_PRODUCT] = [
  [0xfd, 0x80, 0x02],
  [0xfd, 0x91, 0x02],
];

/**
 * What is planted in each of the builds, by its name.
 * @type {Record<string, [string, number[], number[]][]>}
 */
const PLANTED = {
  bank: [
    ['sums', SUM, DIFFERENCE],
    ['look-ups', LOOK_UP, DIFFERENCE],
  ],
  relaxed: [
    ['sums', SUM, DIFFERENCE],
    ['look-ups', RELAXED_LOOK_UP, RELAXED_PRODUCT],
  ],
};

/**
 * Whether all tests pass.
 * @param {Uint8Array} bytes
 */
function passes(bytes) {
  const tests = new WebAssembly.Instance(new WebAssembly.Module(bytes), {});
  try {
    return /** @type {any} */ (tests.exports).main(0, 0) === 0;
  } catch (why) {
    if (why instanceof WebAssembly.RuntimeError) return false;
    throw why;
  }
}

/**
 * The same with each of an instruction as another.
 * @param {Uint8Array} bytes
 * @param {number[]} from
 * @param {number[]} to
 */
function planted(bytes, from, to) {
  const wrong = bytes.slice();
  for (let at = 0; at + from.length <= wrong.length; at++) {
    if (from.every((it, k) => wrong[at + k] === it)) wrong.set(to, at);
  }
  return wrong;
}

/**
 * What is wrong with the tests of a build, or nothing.
 * @param {string} name
 * @param {Uint8Array} bytes
 */
function fault(name, bytes) {
  if (!passes(bytes)) return 'a test failed';
  const unseen = PLANTED[name].filter(([, from, to]) => passes(planted(bytes, from, to)));
  return unseen.length ? `no test saw wrong ${unseen.map(([what]) => what).join(' and ')}` : '';
}

for (const path of process.argv.slice(2)) {
  const name = basename(path, '.wasm'), bytes = new Uint8Array(readFileSync(path));
  // Node 20 has relaxed operations where it is asked for them.
  if (!WebAssembly.validate(bytes)) setFlagsFromString('--experimental-wasm-relaxed-simd');
  const wrong = fault(name, bytes);
  const said = wrong || 'all tests passed as WebAssembly, and saw wrong sums and look-ups';
  console.log(`lanes: ${name}: ${said}`);
  if (wrong) process.exitCode = 1;
}
