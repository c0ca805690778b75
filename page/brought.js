// Values of the form that came with a recording, and not from the reader. They go with it.

import { any } from './dom.js';

/** @typedef {string | boolean} Value */

/** What was brought into fields, and what they had before of the reader's own. */
export class Brought {
  constructor() {
    /** @type {Map<string, { own: Value, brought: Value }>} */
    this.values = new Map();
  }

  /**
   * Puts a value into a field, or a mark into a box.
   * @param {string} id
   * @param {Value} value
   */
  put(id, value) {
    const field = fieldOf(id, value), before = this.values.get(id), now = field.get();
    const own = before && before.brought === now ? before.own : now;
    field.set(value);
    this.values.set(id, { own, brought: field.get() });
  }

  /** Gives the reader's own back, but where the reader has changed what was brought. */
  takeBack() {
    for (const [id, { own, brought }] of this.values) {
      const field = fieldOf(id, own);
      if (field.get() === brought) field.set(own);
    }
    this.values.clear();
  }
}

/** @param {string} id @param {Value} value one of the values that the field has */
function fieldOf(id, value) {
  const it = /** @type {HTMLInputElement} */ (any(id));
  if (typeof value === 'boolean') {
    return { get: () => it.checked, set: (/** @type {Value} */ to) => { it.checked = !!to; } };
  }
  return { get: () => it.value, set: (/** @type {Value} */ to) => { it.value = `${to}`; } };
}
