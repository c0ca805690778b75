// What `tools/page` puts into the page: the banks, their worker's text, and the examples.

import { Failure } from './failures.js';
import { fittest } from './banks.js';
import { make } from './dom.js';

/**
 * A bundled example: its scripts, its recording's name, and how that is read. `format` is a number
 * of `FORMAT` in `worker_job.js`.
 * @typedef {{ name: string, scripts: string[], recording: string, rate: number, offset: number,
 *   format: number, shares: number[] }} Example
 * @typedef {{ banks: import('./banks.js').Banks<string>, worker: string, revision: string,
 *   examples: Example[] }} Built
 */

/** @typedef {{ SELDOMPLOUGH?: Built, bring?: (name: string, text: string) => void }} Globals */
const globals = /** @type {Globals} */ (/** @type {unknown} */ (globalThis));

/** What was built, or nothing where the page is opened among its sources. */
export const BUILT = globals.SELDOMPLOUGH;

/**
 * The bytes of a text of base64.
 * @param {string} text
 */
function bytesOf(text) {
  return Uint8Array.from(atob(text), (it) => it.charCodeAt(0));
}

/**
 * The compiled bank and the address of its worker's script.
 * @returns {Promise<import('./runs.js').Engine>}
 */
async function engineOf() {
  if (!BUILT) throw new Failure('These are the sources of the page: tools/page builds it.');
  const worker = URL.createObjectURL(new Blob([BUILT.worker], { type: 'text/javascript' }));
  const { bank, relaxed } = BUILT.banks;
  const wasm = fittest({ bank: bytesOf(bank), relaxed: bytesOf(relaxed) });
  try {
    return { wasm: await WebAssembly.compile(wasm), worker };
  } catch (why) {
    throw new Failure(`This browser can’t run the bank (${why}).`);
  }
}

/** @type {Promise<import('./runs.js').Engine> | null} */
let known = null;

/** The engine, made once. */
export function engine() {
  known ??= engineOf();
  return known;
}

/** @type {Map<string, File>} */
const files = new Map();

/**
 * The recording of an example. It comes by a script, since a page from a folder may read nothing
 * else.
 * @param {Example} example
 * @returns {Promise<File>}
 */
export function recordingOf({ name, recording }) {
  const file = files.get(name);
  if (file) return Promise.resolve(file);
  return new Promise((resolve, reject) => {
    globals.bring = (brought, text) => {
      files.set(brought, new File([bytesOf(text)], recording));
    };
    const script = make('script', { src: `examples/${name}.js` });
    script.onload = () => {
      const found = files.get(name);
      script.remove();
      if (found) resolve(found);
      else reject(new Failure(`examples/${name}.js has no recording.`));
    };
    script.onerror = () => reject(new Failure(`examples/${name}.js isn’t beside this page.`));
    document.head.append(script);
  });
}
