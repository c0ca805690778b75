// All lines of a run as text, kept so that ten million of them are found and filtered at once.

import { KINDS } from './lines.js';

/** @typedef {import('./lines.js').Line} Line */

// Lines of a chunk: 2^12. A chunk that is full is one text and the places where its lines begin.
const SHIFT = 12, LINES = 1 << SHIFT, MASK = LINES - 1;
// A line's key: its client (15 for greater ones), its slot (15 for none) and its kind.
const NO_SLOT = 15, MOST_CLIENT = 15;

/**
 * The key of a line: what it is filtered by, in 16 bits.
 * @param {Line} line
 */
function keyOf(line) {
  const slot = 'slot' in line ? line.slot : NO_SLOT;
  return (Math.min(MOST_CLIENT, line.client) << 10) | (slot << 6) | KINDS.indexOf(line.kind);
}

/** The lines. */
export class Store {
  constructor() {
    this.length = 0;
    /** @type {{ text: string, starts: Uint32Array }[]} */
    this.chunks = [];
    /** @type {Uint16Array[]} */
    this.keys = [];
    /** @type {string[]} */
    this.open = [];
  }

  /** @param {Line} line @param {string} text */
  push(line, text) {
    if ((this.length & MASK) === 0) this.keys.push(new Uint16Array(LINES));
    this.keys[this.keys.length - 1][this.length & MASK] = keyOf(line);
    this.open.push(text);
    this.length += 1;
    if (this.open.length === LINES) this.#seal();
  }

  #seal() {
    const starts = new Uint32Array(LINES + 1);
    this.open.forEach((text, at) => { starts[at + 1] = starts[at] + text.length + 1; });
    this.chunks.push({ text: `${this.open.join('\n')}\n`, starts });
    this.open = [];
  }

  /**
   * The text of a line, from 0.
   * @param {number} at
   */
  text(at) {
    const chunk = this.chunks[at >> SHIFT];
    if (!chunk) return this.open[at & MASK];
    return chunk.text.slice(chunk.starts[at & MASK], chunk.starts[(at & MASK) + 1] - 1);
  }

  /**
   * The key of a line.
   * @param {number} at
   */
  key(at) {
    return this.keys[at >> SHIFT][at & MASK];
  }

  /**
   * All lines, as parts of a file.
   * @returns {string[]}
   */
  parts() {
    return [...this.chunks.map((it) => it.text), this.open.map((it) => `${it}\n`).join('')];
  }
}

/**
 * What lines are chosen by: numbers of a client and of a slot, a kind, a part of the text. What is
 * null or empty chooses all.
 * @typedef {{ client: number | null, slot: number | null, kind: string, part: string }} Wanted
 */

/** The lines of a store that are wanted, found a few at a time. */
export class Chosen {
  /** @param {Store} store @param {Wanted} wanted */
  constructor(store, wanted) {
    this.store = store;
    this.wanted = wanted;
    /** How many lines of the store were looked at. */
    this.seen = 0;
    this.isAll = wanted.client === null && wanted.slot === null && !wanted.kind && !wanted.part;
    /** @type {Uint32Array[]} */
    this.chunks = [];
    this.found = 0;
  }

  /** How many lines were chosen so far. */
  get length() {
    return this.isAll ? this.store.length : this.found;
  }

  /**
   * The line of the store that is chosen as the one of a number from 0.
   * @param {number} at
   */
  at(at) {
    return this.isAll ? at : this.chunks[at >> SHIFT][at & MASK];
  }

  /**
   * Looks at so many more lines. It says whether there are others.
   * @param {number} most
   */
  look(most) {
    if (this.isAll) this.seen = this.store.length;
    const end = Math.min(this.store.length, this.seen + most);
    for (; this.seen < end; this.seen += 1) {
      if (!this.#takes(this.seen)) continue;
      if ((this.found & MASK) === 0) this.chunks.push(new Uint32Array(LINES));
      this.chunks[this.chunks.length - 1][this.found & MASK] = this.seen;
      this.found += 1;
    }
    return this.seen < this.store.length;
  }

  /** @param {number} at */
  #takes(at) {
    const key = this.store.key(at), { client, slot, kind, part } = this.wanted;
    if (client !== null && key >> 10 !== Math.min(MOST_CLIENT, client)) return false;
    if (slot !== null && ((key >> 6) & 15) !== slot) return false;
    if (kind && KINDS[key & 63] !== kind) return false;
    return !part || this.store.text(at).includes(part);
  }
}
