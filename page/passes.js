// A slot of a client, and what it did with one satellite after the other.

import { Estimator } from './cn0.js';
import { Series } from './series.js';

/**
 * What a slot does.
 * @typedef {'searching' | 'none' | 'tracking' | 'locked' | 'edge' | 'holding' | 'lost'
 *   | 'stopped'} State
 */

/**
 * States in which a slot has a satellite's signal.
 * @type {State[]}
 */
export const FOLLOWS = ['tracking', 'locked', 'edge', 'holding'];
/**
 * States in which a slot does nothing more.
 * @type {State[]}
 */
export const OVER = ['none', 'lost', 'stopped'];

/** What a slot did with one satellite, from the command or the first line about it on. */
export class Pass {
  /**
   * @param {number} client
   * @param {number} slot
   * @param {number | null} satellite null where no line has named it
   * @param {number} begun in samples
   * @param {number} rate samples a second
   */
  constructor(client, slot, satellite, begun, rate) {
    this.client = client;
    this.slot = slot;
    this.satellite = satellite;
    this.begun = begun;
    /** @type {State} */
    this.state = 'tracking';
    /** The centre of a search, or the shift of a command, in Hz. */
    this.centre = 0;
    /**
     * Where the code begins, in half chips, by the command or the search.
     * @type {number | null}
     */
    this.halfChip = null;
    this.isHeld = false;
    /**
     * Since when it is locked, in samples.
     * @type {number | null}
     */
    this.locked = null;
    /**
     * When the edge of its bits was found.
     * @type {number | null}
     */
    this.bits = null;
    /**
     * When it was lost.
     * @type {number | null}
     */
    this.lost = null;
    /** Cells of a search: those done, and all. */
    this.done = 0;
    this.cells = 0;
    this.subframes = 0;
    /** Words of its subframes whose parity failed. */
    this.failed = 0;
    /**
     * The time of week after its last subframe, in 6 s.
     * @type {number | null}
     */
    this.tow = null;
    /** @type {number | null} */
    this.health = null;
    /** Doppler shifts in Hz, from `state` lines. */
    this.doppler = new Series();
    /**
     * The last one known, from a `state` line, a search or a command.
     * @type {number | null}
     */
    this.shift = null;
    /** The C/N0 of each second, in dB-Hz. */
    this.density = new Series();
    /** The six sums of each dump. */
    this.sums = new Series(6);
    /** The sizes of early, prompt and late sums of whole periods: added up, and how many. */
    this.sizes = [0, 0, 0];
    this.wholes = 0;
    this.estimator = new Estimator(rate);
  }
}

/**
 * What happened in a slot at a time: its state from then on, or a subframe.
 * @typedef {{ time: number, state: State, satellite: number | null }} Span
 * @typedef {{ time: number, id: number, failed: number }} Mark
 */

/** A slot of a client: its passes, and its line of time. */
export class Slot {
  /** @param {number} client @param {number} slot */
  constructor(client, slot) {
    this.client = client;
    this.slot = slot;
    /** @type {Pass | null} */
    this.pass = null;
    /** @type {Span[]} */
    this.spans = [];
    /** @type {Mark[]} */
    this.subframes = [];
    /** Whether it ever had a satellite's signal. */
    this.hasFound = false;
  }
}

/**
 * Turns a pass and its slot to a state.
 * @param {Slot} slot
 * @param {Pass} pass
 * @param {number} time in samples
 * @param {State} state
 */
export function turn(slot, pass, time, state) {
  pass.state = state;
  if (FOLLOWS.includes(state)) slot.hasFound = true;
  slot.spans.push({ time, state, satellite: pass.satellite });
}

/**
 * Takes a change of the loops.
 * @param {Slot} slot
 * @param {Pass} pass
 * @param {import('./lines.js').Change} line
 */
export function change(slot, pass, { kind, time }) {
  if (kind === 'lock') {
    pass.locked = time;
    turn(slot, pass, time, 'locked');
  } else if (kind === 'bits') {
    pass.bits = time;
    turn(slot, pass, time, 'edge');
  } else if (kind === 'unlock') {
    pass.locked = null;
    turn(slot, pass, time, 'tracking');
  } else {
    pass.locked = null;
    pass.lost = time;
    turn(slot, pass, time, 'lost');
  }
}

/**
 * Takes the sums of a dump.
 * @param {Pass} pass
 * @param {import('./lines.js').Count} line
 */
export function takeSums(pass, line) {
  const { ie, qe, ip, qp, il, ql } = line;
  pass.sums.push(line.time, ie, qe, ip, qp, il, ql);
  if (!pass.estimator.feed(line, settler(pass))) return;
  pass.wholes += 1;
  pass.sizes[0] += Math.hypot(ie, qe);
  pass.sizes[1] += Math.hypot(ip, qp);
  pass.sizes[2] += Math.hypot(il, ql);
}

/**
 * What takes the C/N0 of a second that is over, for a pass.
 * @param {Pass} pass
 * @returns {(second: number, dumps: number, density: number | null) => void}
 */
export function settler(pass) {
  return (_, __, density) => {
    if (density !== null) pass.density.push(pass.estimator.last, density);
  };
}
