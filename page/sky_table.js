// The table of satellites.

import { FOLLOWS } from './passes.js';
import { STATES } from './timeline.js';
import { coloured, make } from './dom.js';

/**
 * @typedef {import('./sky.js').Sky} Sky
 * @typedef {import('./passes.js').Pass} Pass
 */

/** @type {Record<string, number>} */
const RANKS = { edge: 0, locked: 1, holding: 2, tracking: 3, lost: 4, stopped: 5 };

/**
 * The last pass of each slot and satellite that had its signal, the best first.
 * @param {Sky} sky
 * @returns {Pass[]}
 */
function found(sky) {
  /** @type {Map<string, Pass>} */
  const last = new Map();
  for (const pass of sky.passes) {
    if (pass.halfChip === null && !FOLLOWS.includes(pass.state) && pass.shift === null) continue;
    last.set(`${pass.client}.${pass.slot} ${pass.satellite}`, pass);
  }
  return [...last.values()].sort((a, b) => (RANKS[a.state] ?? 9) - (RANKS[b.state] ?? 9)
    || (a.satellite ?? 99) - (b.satellite ?? 99) || a.client - b.client || a.slot - b.slot);
}

/** @param {Pass} it */
const percent = (it) => Math.floor((100 * it.done) / it.cells);

/** @param {number | null} value @param {number} digits */
const fixed = (value, digits) => (value === null ? '' : value.toFixed(digits)
  .replace('-', '\u2212'));

/** @param {Pass} it @param {number} rate @returns {Node} */
function row(it, rate) {
  /** @param {number | null} time */
  const seconds = (time) => fixed(time === null ? null : time / rate, 3);
  const density = it.density.length ? it.density.value(it.density.length - 1) : null;
  const state = make('td', {}, coloured(it.state, { class: 'dot' }),
    it.state === 'lost' ? `lost at ${seconds(it.lost)} s` : STATES[it.state]);
  const cells = [fixed(it.shift, 1), fixed(density, 1), seconds(it.locked), seconds(it.bits),
    it.subframes ? `${it.subframes}` : '',
    it.subframes ? `${it.failed} of ${10 * it.subframes}` : '',
    it.health === null ? '' : it.health ? `not healthy (${it.health})` : 'healthy',
    `${it.client}.${it.slot}`];
  const name = it.satellite === null ? 'PRN ?' : `PRN ${it.satellite}`;
  return make('tr', {}, make('th', { scope: 'row' }, name), state,
    ...cells.map((text) => make('td', {}, text)));
}

/**
 * The rows of the satellites.
 * @param {Sky} sky
 * @returns {Node[]}
 */
export function skyRows(sky) {
  const rows = found(sky).map((it) => row(it, sky.rate));
  return rows.length ? rows : [make('tr', {}, make('td', { colspan: '10' }, 'None yet.'))];
}

/**
 * A sentence about the satellites that aren't in the table: those that are searched for, with the
 * part of the cells that is done, and those that weren't found.
 * @param {Sky} sky
 * @returns {string}
 */
export function absentText(sky) {
  const inTable = new Set(found(sky).map((it) => it.satellite));
  const latest = sky.latest().filter((it) => it.satellite !== null);
  const seeking = latest.filter((it) => it.state === 'searching');
  const sought = new Set(seeking.map((it) => it.satellite));
  const searching = seeking.map((it) =>
    `${it.satellite}${it.cells ? ` (${percent(it)} %)` : ''}`);
  const absent = [...new Set(sky.passes.filter((it) => it.state === 'none')
    .map((it) => it.satellite))].filter((it) => !inTable.has(it) && !sought.has(it));
  const parts = [];
  if (searching.length) parts.push(`Searching: ${searching.join(', ')}.`);
  if (absent.length) {
    const numbers = absent.map(Number).sort((a, b) => a - b);
    parts.push(`Not found: ${numbers.join(', ')}. That is no proof of absence.`);
  }
  if (found(sky).some((it) => it.state === 'locked' || it.state === 'tracking')) {
    parts.push('Noise is found and locks now and then: what has its bit edge is a satellite.');
  }
  return parts.join(' ');
}
