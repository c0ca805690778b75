// The curves that can be drawn over time, and their points.

import { hue } from './axes.js';

/**
 * @typedef {import('./sky.js').Sky} Sky
 * @typedef {import('./passes.js').Pass} Pass
 * @typedef {import('./view.js').View} View
 * @typedef {import('./series.js').Series} Series
 */

// Calls of a pen for one curve.
const MOST_CALLS = 4000;

/**
 * A curve that is drawn: a column of a series, with a name and a colour.
 * @typedef {{ name: string, colour: string, series: Series, column: number, less: number,
 *   isJoined: boolean }} Curve
 */

/**
 * Passes of which there is something to draw, in the order of their finding.
 * @param {Sky} sky
 * @param {(pass: Pass) => Series} of
 */
const drawn = (sky, of) => sky.passes.filter((it) => of(it).length > 0);

// The order in which satellites were first drawn, by which each keeps its colour.
/** @type {WeakMap<Sky, Map<number | null, number>>} */
const ranks = new WeakMap();

/** @param {Sky} sky @param {Pass} pass */
function rankOf(sky, { satellite }) {
  const known = ranks.get(sky) ?? new Map();
  ranks.set(sky, known);
  if (!known.has(satellite)) known.set(satellite, known.size);
  return known.get(satellite);
}

/**
 * The curves of what is chosen.
 * @param {Sky} sky
 * @param {string} what
 * @param {Pass | null} source whose sums are drawn
 * @returns {Curve[]}
 */
function curvesOf(sky, what, source) {
  /** @param {(pass: Pass) => Series} of @param {(pass: Pass) => number} less */
  const each = (of, less) => drawn(sky, of).map((pass) => ({ name: `${pass.satellite ?? '?'}`,
    colour: hue(rankOf(sky, pass)), series: of(pass), column: 0, less: less(pass),
    isJoined: true }));
  if (what === 'cn0') return each((it) => it.density, () => 0);
  if (what === 'doppler') return each((it) => it.doppler, () => 0);
  if (what === 'change') return each((it) => it.doppler, (it) => it.doppler.value(0));
  if (!source) return [];
  return what === 'prompt'
    ? [curve('QP', hue(1), source.sums, 3), curve('IP', hue(0), source.sums, 2)] : [];
}

/** @param {string} name @param {string} colour @param {Series} series @param {number} column */
const curve = (name, colour, series, column) =>
  ({ name, colour, series, column, less: 0, isJoined: false });

/**
 * Points of a curve: time, least and greatest value.
 * @typedef {{ name: string, colour: string, isJoined: boolean,
 *   points: [number, number, number][] }} Drawn
 */

/** @param {Curve[]} curves @param {View} view @returns {Drawn[]} */
function seriesCurves(curves, view) {
  const most = Math.max(200, Math.floor(MOST_CALLS / Math.max(1, curves.length / 4)));
  return curves.map(({ name, colour, series, column, less, isJoined }) => {
    /** @type {[number, number, number][]} */
    const points = [];
    const from = Math.max(0, series.find(view.from) - 1), to = series.find(view.to + 1);
    series.thinned(from, Math.min(series.length, to + 1), column, most, (time, low, high) =>
      points.push([time, low - less, high - less]));
    return { name, colour, isJoined, points };
  });
}

/**
 * The sizes of early, prompt and late sums: means of twenty dumps or more.
 * @param {Pass | null} pass @param {View} view @returns {Drawn[]}
 */
function sizeCurves(pass, view) {
  /** @type {Drawn[]} */
  const curves = ['early', 'prompt', 'late'].map((name, at) =>
    ({ name, colour: hue(at), isJoined: true, points: [] }));
  if (!pass) return curves;
  const { sums } = pass, from = sums.find(view.from), to = sums.find(view.to + 1);
  // Of very many dumps, means of twenty at even distances.
  const step = Math.max(20, Math.ceil((to - from) / MOST_CALLS));
  for (let at = from; at + 20 <= to; at += step) {
    curves.forEach(({ points }, column) => {
      let size = 0;
      for (let row = at; row < at + 20; row += 1) {
        size += Math.hypot(sums.value(row, 2 * column), sums.value(row, 2 * column + 1)) / 20;
      }
      points.push([sums.time(at + 19), size, size]);
    });
  }
  return curves;
}

/**
 * The curves of what is chosen, with their points of the time that is seen.
 * @param {Sky} sky
 * @param {string} what
 * @param {Pass | null} source whose sums are drawn
 * @param {View} view
 * @returns {Drawn[]}
 */
export function drawnCurves(sky, what, source, view) {
  if (what === 'sizes') return sizeCurves(source, view);
  return seriesCurves(curvesOf(sky, what, source), view);
}
