// Scripts: their texts, their shares, and their lines with the answers to them.

import { Failure } from './failures.js';

/** Clients of a run, and the slots that each has without shares. */
export const CLIENTS = 8, SLOTS = 4;
/** The greatest script in bytes. */
const LONGEST_SCRIPT = 16 * 2 ** 20;
// A line of a script that is longer isn't looked at, in bytes.
const LONGEST_LINE = 80;

/**
 * The scripts of a text: a line `--` begins the next client's.
 * @param {string} text
 * @returns {string[]}
 */
export function split(text) {
  return text.split('\n').reduce((scripts, line) => {
    if (line.trim() === '--') scripts.push('');
    else scripts[scripts.length - 1] += `${line}\n`;
    return scripts;
  }, ['']).map((it) => it.replace(/\n$/, ''));
}

/**
 * The slots of each script, by a text of digits as `--shares` takes it. None is four each.
 * @param {string} text
 * @param {number} scripts
 * @returns {number[]}
 */
export function sharesOf(text, scripts) {
  const digits = text.trim();
  if (!digits) return Array(scripts).fill(SLOTS);
  if (!/^[1-8]+$/.test(digits) || digits.length !== scripts) {
    throw new Failure('Shares need one digit from 1 to 8 for each script.');
  }
  return [...digits].map(Number);
}

/**
 * Sees that so many scripts, of these lengths, can be run.
 * @param {string[]} scripts
 */
export function checkScripts(scripts) {
  if (scripts.length > CLIENTS) {
    throw new Failure('A run takes eight scripts at most: run it again for the others.');
  }
  if (scripts.some((it) => new TextEncoder().encode(it).length > LONGEST_SCRIPT)) {
    throw new Failure('A script has more than 16 MiB.');
  }
}

/**
 * A line of a script that gets an answer: its number from 1, its text and its words.
 * @typedef {{ number: number, text: string, words: string[] }} Asked
 */

/**
 * The lines of a script that have words, or that are too long to be looked at.
 * @param {string} script
 * @returns {Asked[]}
 */
export function askedOf(script) {
  return script.split('\n')
    .map((text, at) => ({ number: at + 1, text, words: text.split(' ').filter(Boolean) }))
    .filter((it) => it.words.length || new TextEncoder().encode(it.text).length > LONGEST_LINE);
}

/** The lines of all scripts with the answers that have come so far. */
export class Answers {
  /** @param {string[]} scripts those of the clients, from the first one on */
  constructor(scripts) {
    this.asked = scripts.map(askedOf);
    this.answered = scripts.map(() => 0);
    /** @type {{ client: number, asked: Asked, reason: string }[]} */
    this.refused = [];
  }

  /**
   * The line of a script that an answer is to, or null where the script isn't known.
   * @param {import('./lines.js').Line} line
   * @returns {Asked | null}
   */
  feed(line) {
    const lines = this.asked[line.client - 1];
    if (!lines || (line.kind !== 'ok' && line.kind !== 'err' && line.kind !== 'state')) return null;
    const asked = lines[this.answered[line.client - 1]] ?? null;
    this.answered[line.client - 1] += 1;
    if (asked && line.kind === 'err') {
      this.refused.push({ client: line.client, asked, reason: line.reason });
    }
    return asked;
  }

  /**
   * How many lines of a client, from 1, got no answer.
   * @param {number} client
   */
  unanswered(client) {
    const lines = this.asked[client - 1];
    return lines ? Math.max(0, lines.length - this.answered[client - 1]) : 0;
  }
}
