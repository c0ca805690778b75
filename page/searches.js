// Scripts that search for all 32 satellites.

import { CLIENTS, SLOTS } from './scripts.js';

// Half chips of a code: the places that a bin is searched at. A cell is done each four samples.
const HALF_CHIPS = 2046, SAMPLES_A_CELL = 4;
// Seconds from a search for a satellite to the next one.
const AGAIN = 10;
// States and bursts of dumps of a slot in a whole run, and the dumps of a burst.
const STATES = 600, BURSTS = 120, DUMPS = 200;

/**
 * What a search asks for: bins of 250 Hz to each side of the centre, periods of 1 ms that are added
 * up, the threshold in tenths of the mean power, the centre in Hz.
 * @typedef {{ bins: number, periods: number, threshold: number, centre: number }} Search
 */

/**
 * The search that covers 5 kHz to each side.
 * @type {Search}
 */
export const SEARCH = { bins: 20, periods: 10, threshold: 45, centre: 0 };

/**
 * In how many samples after its command the answer of a search is due.
 * @param {Search} search
 * @param {number} rate samples a second
 */
export function lengthOf(search, rate) {
  const cells = HALF_CHIPS * (2 * search.bins + 1);
  return search.periods * Math.floor(rate / 1000) + SAMPLES_A_CELL * cells;
}

/**
 * The line of a script that begins a search.
 * @param {Search} search
 * @param {number} time in samples
 * @param {number} slot
 * @param {number} satellite
 */
function commandOf(search, time, slot, satellite) {
  const { centre, bins, periods, threshold } = search;
  return `${time} acquire ${slot} ${satellite} ${centre} ${bins} ${periods} ${threshold}`;
}

/**
 * Eight scripts that search for all 32 satellites, four slots each. The first begins at sample
 * `first`, each other one `every` samples after the one before.
 * @param {Search} search
 * @param {number} first
 * @param {number} every
 * @returns {string[][]}
 */
export function searches(search, first, every) {
  return Array.from({ length: CLIENTS }, (_, client) =>
    Array.from({ length: SLOTS }, (__, slot) =>
      commandOf(search, first + client * every, slot, SLOTS * client + slot + 1)));
}

/**
 * Eight scripts that search for all 32 satellites by fours, so that the first are seen while others
 * are searched for, and track what they find: the Doppler shift every so often, and dumps for C/N0.
 * A slot that found nothing, or lost its satellite, searches again each 10 s. In a short recording
 * the fours follow one another faster, so that the last are due after a third of it.
 * @param {number} rate samples a second
 * @param {number} samples those of the recording
 * @param {Search} [search]
 * @returns {string[]}
 */
export function skyScripts(rate, samples, search = SEARCH) {
  const due = lengthOf(search, rate);
  const spare = Math.floor((samples / 3 - due) / (CLIENTS - 1));
  const every = Math.max(0, Math.min(due, spare));
  return Array.from({ length: CLIENTS }, (_, client) =>
    skyScript(search, rate, samples, client, client * every));
}

/**
 * @param {Search} search @param {number} rate @param {number} samples @param {number} client
 * @param {number} first @returns {string}
 */
function skyScript(search, rate, samples, client, first) {
  const due = lengthOf(search, rate), state = Math.max(rate / 10, samples / STATES);
  const burst = Math.max(rate, samples / BURSTS);
  /** @type {[number, number, string][]} */
  const rows = [];
  /**
   * @param {number} from @param {number} step
   * @param {(time: number, slot: number) => string} of
   */
  const each = (from, step, of) => {
    for (let at = from; at < samples; at += step) {
      const time = Math.round(at);
      for (let slot = 0; slot < SLOTS; slot += 1) rows.push([time, rows.length, of(time, slot)]);
    }
  };
  each(first, AGAIN * rate, (time, slot) =>
    commandOf(search, time, slot, SLOTS * client + slot + 1));
  each(first + due, burst, (time, slot) => `${time} counts ${slot} ${DUMPS}`);
  each(first + due / 4, state, (time, slot) => `${time} state ${slot}`);
  for (let slot = 0; slot < SLOTS; slot += 1) {
    rows.push([samples, rows.length, `${samples} state ${slot}`]);
  }
  rows.sort((a, b) => a[0] - b[0] || a[1] - b[1]);
  return rows.map((it) => `${it[2]}\n`).join('');
}
