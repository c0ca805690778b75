// What each slot of each client did, folded from printed lines: all that the page draws is here.

import { OVER, Pass, Slot, change, settler, takeSums, turn } from './passes.js';
import { Answers } from './scripts.js';
import { integerOf } from './pages.js';

/**
 * @typedef {import('./passes.js').State} State
 * @typedef {import('./lines.js').Line} Line
 * @typedef {import('./lines.js').SlotLine} SlotLine
 */

// What the loops of a slot that tracks do, by the stage that `state` names.
const STAGES = /** @type {const} */ ({ open: 'tracking', lock: 'locked', bits: 'edge' });

/**
 * A page of a satellite, with the pass that brought it.
 * @typedef {{ pass: Pass, line: import('./lines.js').Page | import('./lines.js').Als
 *   | import('./lines.js').Msg }} Told
 */

/** Takes lines in their order. */
export class Sky {
  /**
   * @param {number} rate samples a second
   * @param {string[]} [scripts] those of the clients, where they are known
   */
  constructor(rate, scripts = []) {
    this.rate = rate;
    this.time = 0;
    this.lines = 0;
    this.refused = 0;
    this.ends = 0;
    this.answers = new Answers(scripts);
    /** @type {Map<string, Slot>} */
    this.slots = new Map();
    /** @type {Pass[]} */
    this.passes = [];
    /** @type {Told[]} */
    this.pages = [];
  }

  /**
   * Takes the next line. It says the pass that the line is of, or null.
   * @param {Line} line
   * @returns {Pass | null}
   */
  feed(line) {
    this.lines += 1;
    this.time = Math.max(this.time, line.time);
    const asked = this.answers.feed(line);
    if (line.kind === 'ok') return asked ? this.#accepted(line, asked.words) : null;
    if (line.kind === 'err') {
      this.refused += 1;
      return null;
    }
    if (line.kind === 'end') this.ends += 1;
    if (!('slot' in line)) return null;
    const slot = this.#slot(line.client, line.slot);
    return this.#take(slot, line);
  }

  /** The samples came to their end, or the reader stopped: what is under way is settled. */
  end() {
    for (const pass of this.passes) pass.estimator.settle(settler(pass));
  }

  /**
   * The slots in order of client and slot.
   * @returns {Slot[]}
   */
  ordered() {
    return [...this.slots.values()].sort((a, b) => a.client - b.client || a.slot - b.slot);
  }

  /**
   * The latest pass of each satellite and slot that had its signal, and of those that search.
   * @returns {Pass[]}
   */
  latest() {
    return this.ordered().flatMap((it) => (it.pass ? [it.pass] : []));
  }

  /** @param {number} client @param {number} number @returns {Slot} */
  #slot(client, number) {
    const key = `${client}.${number}`;
    let slot = this.slots.get(key);
    if (!slot) this.slots.set(key, slot = new Slot(client, number));
    return slot;
  }

  /**
   * @param {Slot} slot @param {number | null} satellite @param {number} time @param {State} state
   * @returns {Pass}
   */
  #begin(slot, satellite, time, state) {
    if (slot.pass) slot.pass.estimator.settle(settler(slot.pass));
    slot.pass = new Pass(slot.client, slot.slot, satellite, time, this.rate);
    this.passes.push(slot.pass);
    turn(slot, slot.pass, time, state);
    return slot.pass;
  }

  /**
   * The pass of a slot that goes on, or a new one: where none is under way, or another satellite
   * is named.
   * @param {Slot} slot @param {number | null} satellite @param {number} time @param {State} state
   * @returns {Pass}
   */
  #going(slot, satellite, time, state) {
    const pass = slot.pass;
    const isOther = satellite !== null && pass?.satellite !== null && pass?.satellite !== satellite;
    if (!pass || OVER.includes(pass.state) || isOther) {
      return this.#begin(slot, satellite, time, state);
    }
    if (satellite !== null) pass.satellite = satellite;
    return pass;
  }

  /**
   * A command of a script that is known was accepted.
   * @param {Line} line @param {string[]} words @returns {Pass | null}
   */
  #accepted({ client, time }, words) {
    const [, verb, number, satellite, centre, halfChip] = words, slot = this.#slot(client, +number);
    if (verb === 'stop') {
      if (slot.pass) turn(slot, slot.pass, time, 'stopped');
      return slot.pass;
    }
    if (verb === 'counts') return slot.pass;
    /** @type {State} */
    const state = verb === 'acquire' ? 'searching' : verb === 'hold' ? 'holding' : 'tracking';
    const pass = this.#begin(slot, +satellite, time, state);
    pass.centre = +centre;
    pass.isHeld = verb === 'hold';
    if (verb !== 'acquire') {
      pass.shift = +centre;
      pass.halfChip = +halfChip;
    }
    return pass;
  }

  /** @param {Slot} slot @param {SlotLine} line @returns {Pass | null} */
  #take(slot, line) {
    if (line.kind === 'acq') return this.#acquired(slot, line);
    if (line.kind === 'state') return this.#stated(slot, line);
    const pass = this.#going(slot, null, line.time, 'tracking');
    if (line.kind === 'count') takeSums(pass, line);
    else if (line.kind === 'sub') {
      pass.subframes += 1;
      pass.failed += line.words_failed;
      pass.tow = line.tow;
      slot.subframes.push({ time: line.time, id: line.id, failed: line.words_failed });
    } else if ('values' in line || line.kind === 'als' || line.kind === 'msg') {
      if (line.kind === 'eph') pass.health = integerOf(line, 'health');
      this.pages.push({ pass, line });
    } else if (line.kind !== 'gap') change(slot, pass, line);
    return pass;
  }

  /** @param {Slot} slot @param {import('./lines.js').Acq} line @returns {Pass} */
  #acquired(slot, line) {
    const { time, satellite } = line;
    const isSearching = slot.pass?.state === 'searching';
    const pass = isSearching ? this.#going(slot, satellite, time, 'searching')
      : this.#begin(slot, satellite, time, 'searching');
    turn(slot, pass, time, line.found ? 'tracking' : 'none');
    if (line.found) {
      pass.shift = pass.centre + line.doppler_from_centre_hz;
      pass.halfChip = line.half_chip;
    }
    return pass;
  }

  /** @param {Slot} slot @param {import('./lines.js').State} line @returns {Pass | null} */
  #stated(slot, line) {
    if (line.mode === 'idle') {
      if (slot.pass && !OVER.includes(slot.pass.state)) turn(slot, slot.pass, line.time, 'stopped');
      return null;
    }
    const state = line.mode === 'track' ? STAGES[line.stage]
      : line.mode === 'hold' ? 'holding' : 'searching';
    const pass = this.#going(slot, line.satellite, line.time, state);
    if (pass.state !== state) turn(slot, pass, line.time, state);
    if (line.mode === 'acquire') [pass.done, pass.cells] = [line.done, line.cells];
    if (line.mode === 'hold') pass.isHeld = true;
    if (line.mode === 'track') {
      pass.shift = line.doppler_hz;
      pass.doppler.push(line.time, line.doppler_hz);
    }
    return pass;
  }
}
