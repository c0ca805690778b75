// The lines of several workers in the order of one run: by time; at one time events, then answers,
// then ends; then by client. Each worker runs some of the clients over the whole recording.

import { Failure, shown } from './failures.js';
import { LONGEST } from './reader.js';

const EVENT = 0, ANSWER = 1, END = 2;
/** @type {Record<string, number>} */
const RANKS = { ok: ANSWER, err: ANSWER, state: ANSWER, end: END };

/** @typedef {{ time: number, rank: number, client: number, text: string }} Placed */

/** The lines of one worker that aren't due yet. */
class Part {
  /** @param {number} before clients before its first */
  constructor(before) {
    this.before = before;
    this.rest = '';
    /** @type {Placed[]} */
    this.lines = [];
    /** All its lines before this time have come. */
    this.time = 0;
  }
}

/** Merges lines as they come. */
export class Merger {
  /** @param {number[]} before for each worker, the clients before its first one */
  constructor(before) {
    this.parts = before.map((it) => new Part(it));
  }

  /**
   * Takes what a worker printed next.
   * @param {number} number that of the worker, from 0
   * @param {string} text
   */
  push(number, text) {
    const part = this.parts[number], texts = (part.rest + text).split('\n');
    part.rest = texts.pop() ?? '';
    if (part.rest.length > LONGEST) throw new Failure(`no line is so long: ${shown(part.rest)}`);
    for (const line of texts) part.lines.push(placed(line, part.before));
    const last = part.lines[part.lines.length - 1];
    if (last) part.time = Math.max(part.time, last.time);
  }

  /**
   * Says that a worker has printed all its lines before a time.
   * @param {number} number that of the worker
   * @param {number} time in samples; `Infinity` where its run is over
   */
  pass(number, time) {
    this.parts[number].time = Math.max(this.parts[number].time, time);
  }

  /**
   * The lines that are due: those before the time that all workers have passed, in order.
   * @returns {string[]}
   */
  take() {
    const time = Math.min(...this.parts.map((it) => it.time));
    if (this.parts.length === 1) return this.parts[0].lines.splice(0).map((it) => it.text);
    const due = this.parts.flatMap((part) => {
      const after = part.lines.findIndex((it) => it.time >= time);
      return part.lines.splice(0, after < 0 ? part.lines.length : after);
    });
    // The order of one client's lines stays, since sorting is stable.
    due.sort((a, b) => a.time - b.time || a.rank - b.rank || a.client - b.client);
    return due.map((it) => it.text);
  }

  /**
   * What a worker that is over left without its line feed.
   * @returns {string}
   */
  rest() {
    return this.parts.map((it) => it.rest).find((it) => it) ?? '';
  }
}

/** @param {string} text @param {number} before @returns {Placed} */
function placed(text, before) {
  const [client, time, verb] = text.split(' ', 3);
  const number = Number(client) + before;
  return { time: Number(time), rank: RANKS[verb] ?? EVENT, client: number,
    text: before ? `${number}${text.slice(client.length)}` : text };
}
