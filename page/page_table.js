// The tables of the message: an ephemeris, all almanacs, and each other page.

import { WEEKS, rolloversBy } from './dates.js';
import { datesOf, integerOf, numberText, rowsOf, weekText } from './pages.js';
import { make } from './dom.js';
import { nameOf } from './timeline.js';

/**
 * @typedef {import('./sky.js').Sky} Sky
 * @typedef {import('./sky.js').Told} Told
 * @typedef {import('./lines.js').Page} Page
 */

// Digits of a value in the table of almanacs.
const DIGITS = 8;

/**
 * The pages that are chosen from: for each satellite its last ephemeris, all almanacs as one table,
 * and the last of each other page.
 * @param {Sky} sky
 * @returns {[string, string][]} a key and a text of each
 */
export function pageOptions(sky) {
  /** @type {Map<string, string>} */
  const options = new Map();
  for (const told of sky.pages) options.set(keyOf(told), textOf(told));
  return [...options].sort((a, b) => Number(b[0].startsWith('eph')) - Number(a[0].startsWith('eph'))
    || a[0].localeCompare(b[0], 'en', { numeric: true }));
}

/** @type {Record<string, string>} */
const TITLES = { eph: 'Clock and ephemeris', alm: 'Almanacs', utc: 'UTC and ionosphere',
  hlt: 'Health of satellites', als: 'Almanacs’ health', msg: 'Special messages' };

/** @param {Told} told */
function keyOf({ pass, line }) {
  if (line.kind !== 'eph') return line.kind;
  return `eph ${pass.satellite ?? '?'} ${pass.client}.${pass.slot}`;
}

/** @param {Told} told */
function textOf({ pass, line }) {
  return line.kind === 'eph' ? `${TITLES.eph}, ${nameOf(pass)}` : TITLES[line.kind];
}

/**
 * The head and the rows of a page, and a sentence about its week.
 * @param {Sky} sky
 * @param {string} key of `pageOptions`
 * @param {number | null} rollovers those that the reader chose, or null
 * @param {Date} today
 * @returns {{ head: string[], rows: Node[], week: string }}
 */
export function pageTable(sky, key, rollovers, today) {
  const told = sky.pages.filter((it) => keyOf(it) === key), last = told[told.length - 1];
  if (!last) return { head: [], rows: [], week: '' };
  const { line } = last, clock = lastClock(sky);
  const times = rollovers ?? (clock === null ? 0 : rolloversBy(clock, today));
  const week = clock === null ? '' : weekText(clock, rollovers, today);
  const full = clock === null ? null : clock + WEEKS * times;
  if (line.kind === 'alm') return { ...almanacs(told), week };
  if (line.kind === 'msg') return { ...messages(told, sky.rate), week: '' };
  if (line.kind === 'als') {
    const rows = line.healths.map((health, at) => cellsRow([`PRN ${at + 1}`, `${health}`]));
    return { head: ['Satellite', 'Health'], rows, week };
  }
  return { head: ['Name', 'What', 'Value', 'Unit', 'Integer'],
    rows: [...datesOf(line, times, full).map((it) =>
      fieldRow(it.about, 'date, GPS time', it.date, '', '')),
    ...rowsOf(line).map((it) => fieldRow(it.symbol, it.about, it.value, it.unit, it.integer))],
    week };
}

/**
 * The week of the last clock that came, modulo 1024, or null.
 * @param {Sky} sky
 * @returns {number | null}
 */
function lastClock(sky) {
  for (let at = sky.pages.length - 1; at >= 0; at -= 1) {
    const { line } = sky.pages[at];
    if (line.kind === 'eph') return integerOf(line, 'wn');
  }
  return null;
}

/**
 * The nodes of a text with a name of the standard: the word after its underscore is written lower.
 * @param {string} text
 * @returns {(Node | string)[]}
 */
export function symbolNodes(text) {
  const [base, rest] = text.split('_'), low = /^\w*/.exec(rest ?? '')?.[0] ?? '';
  return low ? [base, make('sub', {}, low), rest.slice(low.length)] : [text];
}

/** @param {string[]} cells */
function fieldRow(...cells) {
  const [symbol, ...texts] = cells, classes = ['name', '', 'unit', ''];
  return make('tr', {}, make('th', { class: 'name', scope: 'row' }, ...symbolNodes(symbol)),
    ...texts.map((text, at) => make('td', { class: classes[at] }, text)));
}

/** @param {string[]} cells */
const cellsRow = (cells) => make('tr', {}, ...cells.map((text, at) =>
  make(at ? 'td' : 'th', at ? {} : { class: 'name', scope: 'row' }, text)));

/** @param {Told[]} told @returns {{ head: string[], rows: Node[] }} */
function almanacs(told) {
  /** @type {Map<number, Page>} */
  const last = new Map();
  for (const { line } of told) if (line.kind === 'alm') last.set(integerOf(line, 'sv'), line);
  const pages = [...last].sort((a, b) => a[0] - b[0]);
  const shown = rowsOf(pages[0][1]).filter((it) => it.name !== 'data' && it.name !== 'sv');
  const head = ['Satellite', ...shown.map((it) =>
    it.symbol + (it.unit ? `, ${it.unit}` : ''))];
  const rows = pages.map(([satellite, page]) => cellsRow([`PRN ${satellite}`, ...rowsOf(page)
    .filter((it) => it.name !== 'data' && it.name !== 'sv')
    .map((it) => numberText(Number(it.number.toPrecision(DIGITS))))]));
  return { head, rows };
}

/** @param {Told[]} told @param {number} rate @returns {{ head: string[], rows: Node[] }} */
function messages(told, rate) {
  const rows = told.flatMap(({ pass, line }) => (line.kind === 'msg'
    ? [cellsRow([(line.time / rate).toFixed(3), nameOf(pass), line.characters])] : []));
  return { head: ['Time, s', 'From', 'Text'], rows: rows.slice(-200) };
}
