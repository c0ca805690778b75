// Lines as they come in pieces of text.

import { Failure, shown } from './failures.js';
import { parse } from './lines.js';

/** @typedef {import('./lines.js').Line} Line */

/** Longer than any line that is printed, in bytes. */
export const LONGEST = 4096;

const ascii = new TextDecoder();

/**
 * The text of a piece of bytes, each byte a character, so that what isn't ASCII stays what no line
 * has.
 * @param {Uint8Array} bytes
 * @returns {string}
 */
export function textOf(bytes) {
  const text = ascii.decode(bytes);
  // Only of ASCII alone is each character a byte that it stands for.
  if (text.length === bytes.length && /^[\x00-\x7f]*$/.test(text)) return text;
  const parts = [];
  for (let at = 0; at < bytes.length; at += LONGEST) {
    parts.push(String.fromCharCode(...bytes.subarray(at, at + LONGEST)));
  }
  return parts.join('');
}

/**
 * Reads lines as pieces of text come. What was read before a text that is no line stays; what comes
 * after it isn't read.
 */
export class Reader {
  /** @param {(line: Line, text: string) => void} take gets each line and its text */
  constructor(take) {
    this.take = take;
    this.number = 0;
    this.rest = '';
    /** Why no more is read: one sentence, or nothing. */
    this.sentence = '';
  }

  /**
   * Takes the next piece. It says whether more is read.
   * @param {string} piece
   * @returns {boolean}
   */
  push(piece) {
    if (this.sentence) return false;
    const texts = (this.rest + piece).split('\n');
    this.rest = texts.pop() ?? '';
    for (const text of texts) if (!this.#line(text)) return false;
    if (this.rest.length < LONGEST) return true;
    return this.#fail(`is longer than ${LONGEST - 1} bytes`, this.rest);
  }

  /**
   * The text came to its end. A last line without its line feed was cut, and is left out.
   * @returns {string} one sentence about what wasn't read, or nothing
   */
  end() {
    if (!this.sentence && this.rest) {
      const cut = `line ${this.number + 1}, the last one, is cut and was left out`;
      this.sentence = `${cut}: ${shown(this.rest)}`;
    }
    return this.sentence;
  }

  /** @param {string} text @returns {boolean} */
  #line(text) {
    this.number += 1;
    try {
      this.take(parse(text), text);
    } catch (why) {
      if (!(why instanceof Failure)) throw why;
      this.number -= 1;
      return this.#fail(why.message, text);
    }
    return true;
  }

  /** @param {string} why @param {string} text @returns {boolean} */
  #fail(why, text) {
    this.sentence = `line ${this.number + 1} ${why}: ${shown(text)}`;
    return false;
  }
}
