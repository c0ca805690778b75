// All lines as text, of which only those in the window are in the page.

import { Chosen } from './store.js';
import { any } from './dom.js';

const ROW = 18, TALLEST = 6000000, LOOK = 200000;

/** The window over the lines of a store. */
export class TextWindow {
  /** @param {import('./store.js').Store} store */
  constructor(store) {
    this.box = any('lines');
    this.pre = any('window');
    this.tall = any('tall');
    this.chosen = new Chosen(store, { client: null, slot: null, kind: '', part: '' });
    this.box.onscroll = () => this.draw();
  }

  /**
   * Shows the lines that are wanted.
   * @param {import('./store.js').Store} store
   * @param {import('./store.js').Wanted} wanted
   */
  choose(store, wanted) {
    this.chosen = new Chosen(store, wanted);
    this.box.scrollTop = 0;
  }

  /** Looks at lines that came. It says whether more wait to be looked at. */
  look() {
    const { box } = this;
    const isLow = box.scrollTop + box.clientHeight >= box.scrollHeight - ROW;
    const more = this.chosen.look(LOOK);
    this.tall.style.height = `${Math.min(TALLEST, this.chosen.length * ROW + 2)}px`;
    if (isLow) box.scrollTop = box.scrollHeight;
    return more;
  }

  /** Draws the lines that are in the window. */
  draw() {
    const { box, chosen, pre } = this, rows = Math.ceil(box.clientHeight / ROW);
    const room = Math.max(1, box.scrollHeight - box.clientHeight);
    const most = Math.max(0, chosen.length - Math.floor(box.clientHeight / ROW));
    // Where there are more lines than a box can be tall, places stand for several.
    const first = Math.min(most, Math.round((box.scrollTop / room) * most));
    const texts = [];
    for (let at = first; at < Math.min(chosen.length, first + rows); at += 1) {
      texts.push(chosen.store.text(chosen.at(at)));
    }
    pre.style.top = `${box.scrollTop}px`;
    pre.textContent = texts.join('\n');
  }
}
