// The lines that the page shows, taken a few at a time so that the page lives on while they come.

import { Reader } from './reader.js';
import { Sky } from './sky.js';
import { Store } from './store.js';

/** The lines of one run, or those of a file. */
export class Session {
  /**
   * @param {number} rate samples a second
   * @param {string[]} scripts those of the clients, where they are known
   */
  constructor(rate, scripts) {
    this.sky = new Sky(rate, scripts);
    this.store = new Store();
    /** How many samples were run over so far. */
    this.time = 0;
    /** How many samples there are, 0 where that isn't known. */
    this.whole = 0;
    /** Whether another one took its place, so that nothing more is said of it. */
    this.isLeft = false;
    /** @type {string[]} */
    this.queue = [];
    this.reader = new Reader((line, text) => {
      this.sky.feed(line);
      this.store.push(line, text);
    });
  }

  /** Whether lines wait to be taken. */
  get isBusy() {
    return this.queue.length > 0;
  }

  /** The sentence about what was no line, or nothing. */
  get sentence() {
    return this.reader.sentence;
  }

  /**
   * Brings the next piece of text.
   * @param {string} text
   */
  bring(text) {
    // Small enough that a piece is taken in a moment.
    const most = 1 << 16;
    for (let at = 0; at < text.length; at += most) this.queue.push(text.slice(at, at + most));
  }

  /**
   * Takes lines for so many milliseconds at most. It says whether there were any.
   * @param {number} most
   */
  pump(most) {
    const before = this.store.length, end = performance.now() + most;
    let taken = 0;
    while (taken < this.queue.length && performance.now() < end) {
      this.reader.push(this.queue[taken]);
      taken += 1;
    }
    this.queue.splice(0, taken);
    this.time = Math.max(this.time, this.sky.time);
    return this.store.length > before;
  }

  /** No more comes. It says what is to say about the last line. */
  end() {
    this.sky.end();
    return this.reader.end();
  }
}
