// The banks that `tools/page` builds, and which of them a browser runs.

/**
 * The bank as WebAssembly: for any browser, and for those that have relaxed operations, where it is
 * quicker. Both give the same lines.
 * @template T
 * @typedef {{ bank: T, relaxed: T }} Banks
 */

/**
 * The bank to run: the quicker one where it is valid here, and not only its one operation.
 * @param {Banks<Uint8Array>} banks
 */
export function fittest({ bank, relaxed }) {
  return WebAssembly.validate(relaxed) ? relaxed : bank;
}
