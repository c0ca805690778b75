// Pages as rows for people: the standard's names, values in SI units, dates.

import { RADIANS, TABLES, radiansOf, valueOf } from './fields.js';
import { SECONDS_A_DAY, WEEKS, dateOf, rolloversBy, weekNear } from './dates.js';

/**
 * A row of a table: the name in a line, the standard's name, what it is, the value as a number and
 * as text with its unit, and the integer with its scale. An underscore in the standard's name comes
 * before what is written lower.
 * @typedef {{ name: string, symbol: string, about: string, number: number, value: string,
 *   unit: string, integer: string }} Row
 * @typedef {import('./lines.js').Page} Page
 */

// Numbers below this are shown by a power of ten.
const SMALL = 1e-3;

/**
 * A whole number as an exponent.
 * @param {number} value
 */
const raised = (value) => `${value}`.replace(/./g, (it) =>
  '⁻⁰¹²³⁴⁵⁶⁷⁸⁹'['-0123456789'.indexOf(it)]);

/**
 * A number as the shortest text that gives it again, with a true minus.
 * @param {number} value
 */
export function numberText(value) {
  const isSmall = value !== 0 && Math.abs(value) < SMALL;
  const [digits, power] = (isSmall ? value.toExponential() : `${value}`).split('e');
  return digits.replace('-', '\u2212') + (power ? ` × 10${raised(Number(power))}` : '');
}

/**
 * The values that follow from a page by their names with units, as the companion has them: angles
 * both in semicircles and in radians.
 * @param {Page} page
 * @returns {Record<string, number>}
 */
export function derived(page) {
  /** @type {Record<string, number>} */
  const result = {};
  TABLES[page.kind].forEach((it, at) => {
    if (!it.unit) return;
    result[`${it.name}_${unitName(it.unit)}`] = valueOf(it, page.values[at]);
    const unit = RADIANS[it.unit];
    if (unit) result[`${it.name}_${unitName(unit)}`] = radiansOf(it, page.values[at]);
  });
  return result;
}

/** @param {string} unit @returns {string} */
function unitName(unit) {
  return unit.replace('√', 'sqrt_').replace('/', '_per_').replace('²', '2').replace('³', '3');
}

/**
 * The rows of a page. Angles are in radians, and their row has semicircles beside the integer.
 * @param {Page} page
 * @returns {Row[]}
 */
export function rowsOf(page) {
  return TABLES[page.kind].map((it, at) => {
    const integer = page.values[at], unit = RADIANS[it.unit] ?? it.unit;
    const value = it.unit in RADIANS ? radiansOf(it, integer) : valueOf(it, integer);
    const step = it.step === 1 ? '' : ` × ${it.step}`;
    const scale = it.exponent ? ` × 2${raised(it.exponent)}` : '';
    const angle = it.unit in RADIANS ? ` ${it.unit}` : '';
    return { name: it.name, symbol: it.symbol, about: it.about, number: value,
      value: numberText(value), unit: unit === 'dimensionless' ? '' : unit,
      integer: `${numberText(integer)}${step}${scale}${angle}` };
  });
}

/**
 * The integer of a page's field by its name.
 * @param {Page} page
 * @param {string} name
 */
export function integerOf(page, name) {
  return page.values[TABLES[page.kind].findIndex((it) => it.name === name)];
}

/**
 * The dates of a page, each with what it is of. `full` is the week since 1980 by which a week
 * modulo 256 is meant.
 * @param {Page} page
 * @param {number} rollovers
 * @param {number | null} full
 * @returns {{ about: string, date: string }[]}
 */
export function datesOf(page, rollovers, full) {
  /** @param {string} name */
  const value = (name) => {
    const at = TABLES[page.kind].findIndex((it) => it.name === name);
    return valueOf(TABLES[page.kind][at], page.values[at]);
  };
  if (page.kind === 'eph') {
    const week = value('wn');
    return [
      { about: 'the week began', date: dateOf(week, rollovers, 0) },
      { about: 't_oc', date: dateOf(week, rollovers, value('toc')) },
      { about: 't_oe', date: dateOf(week, rollovers, value('toe')) },
    ];
  }
  if (full === null) return [];
  if (page.kind === 'utc') {
    const time = dateOf(weekNear(value('wnt'), full), 0, value('tot'));
    // The week of a leap second that is past may be more than 128 weeks ago, and isn't known then.
    // The leap second comes at the end of its day.
    const leap = dateOf(weekNear(value('wnlsf'), full), 0, SECONDS_A_DAY * value('dn'));
    return [{ about: 't_ot', date: time }, ...(value('dtls') === value('dtlsf') ? []
      : [{ about: 'leap second', date: leap }])];
  }
  if (page.kind === 'hlt') {
    return [{ about: 't_oa', date: dateOf(weekNear(value('wna'), full), 0, value('toa')) }];
  }
  return [];
}

/**
 * A sentence about the week of an ephemeris: its number, its rollovers, and what both mean.
 * @param {number} week modulo 1024
 * @param {number | null} chosen the reader's rollovers, or null: the last date up to today
 * @param {Date} today
 */
export function weekText(week, chosen, today) {
  const rollovers = chosen ?? rolloversBy(week, today);
  const by = chosen === null ? `the last such week up to ${today.toISOString().slice(0, 10)}`
    : 'as chosen';
  const full = week + WEEKS * rollovers;
  return `Week ${week} modulo ${WEEKS}; with ${rollovers} rollovers, ${by}, it is week ${full}.`;
}
