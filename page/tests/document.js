// A document for tests in Node: the elements of `index.html`, as far as the page's scripts use
// them. What is drawn on a canvas goes nowhere.

import { readFileSync } from 'node:fs';

const HTML = readFileSync(new URL('../index.html', import.meta.url), 'utf8');

/** Takes any call and any member, as a canvas to draw on. */
const NOWHERE = new Proxy({}, {
  get: (_, name) => (name === 'measureText' ? () => ({ width: 0 }) : () => NOWHERE),
  set: () => true,
});

/** An element, of whatever kind. */
class Element {
  constructor() {
    this.textContent = '';
    this.value = '';
    this.checked = this.disabled = this.hidden = this.open = false;
    /** @type {Record<string, string>} */
    this.dataset = {};
    /** @type {Record<string, string>} */
    this.style = {};
    /** @type {unknown[]} */
    this.children = [];
    this.clientWidth = this.clientHeight = this.scrollTop = this.scrollHeight = 0;
    this.selectedOptions = [{ text: '' }];
  }

  /** @param {...unknown} more */
  append(...more) {
    this.children.push(...more);
  }

  /** @param {...unknown} all */
  replaceChildren(...all) {
    this.children = all;
  }

  /** @param {string} name @param {string} value */
  setAttribute(name, value) {
    Object.assign(this, { [name]: value });
  }

  addEventListener() {}

  getContext() {
    return NOWHERE;
  }
}

const KINDS = ['HTMLElement', 'HTMLInputElement', 'HTMLSelectElement', 'HTMLButtonElement',
  'HTMLCanvasElement', 'HTMLTextAreaElement', 'HTMLDetailsElement', 'HTMLProgressElement'];

/** Puts a new document in the place of a browser's, with all values that `index.html` gives. */
export function openDocument() {
  /** @type {Map<string, Element>} */
  const elements = new Map();
  for (const [tag, id] of HTML.matchAll(/<[a-z]+\b[^>]*\bid="([\w-]+)"[^>]*>/g)) {
    const made = new Element();
    made.value = / value="([^"]*)"/.exec(tag)?.[1] ?? '';
    elements.set(id, made);
  }
  Object.assign(globalThis, Object.fromEntries(KINDS.map((it) => [it, Element])), {
    document: {
      hidden: false,
      body: new Element(),
      head: new Element(),
      getElementById: (/** @type {string} */ id) => elements.get(id) ?? null,
      createElement: () => new Element(),
    },
    Option: class extends Element {},
    ResizeObserver: class { observe() {} },
    getComputedStyle: () => ({ color: '' }),
    matchMedia: () => ({ matches: false }),
    devicePixelRatio: 1,
  });
}

/**
 * An element of the document by its id.
 * @param {string} id
 * @returns {any}
 */
export const at = (id) => document.getElementById(id);
