// What the page says of what goes on: a sentence, how far it is, and that it is done.

import { Failure } from './failures.js';
import { any, element } from './dom.js';

/**
 * Says a sentence, or nothing.
 * @param {string} text
 */
export function say(text) {
  any('said').textContent = text;
}

/**
 * Does what may fail, and says why it did.
 * @param {() => Promise<void> | void} act
 */
export async function attempt(act) {
  say('');
  try {
    await act();
  } catch (why) {
    say(why instanceof Failure ? why.message : `This could not be done (${why}).`);
  }
}

/**
 * Says how far it is.
 * @param {string} text
 * @param {number} part from 0 to 1
 */
export function showFar(text, part) {
  any('far').textContent = text;
  element('bar', HTMLProgressElement).value = Math.min(1, part);
}

/**
 * Says whether what was begun is done, and all of it drawn. A check may wait for it by `data-done`
 * of `far`.
 * @param {boolean} isDone
 */
export function setDone(isDone) {
  if (isDone) any('far').dataset.done = 'true';
  else delete any('far').dataset.done;
  any('heard').textContent = isDone ? `Done: ${any('far').textContent}` : '';
}

/**
 * Waits.
 * @param {number} ms
 */
export const pause = (ms) => new Promise((resolve) => { setTimeout(resolve, ms); });
