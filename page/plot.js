// The drawing of values over time.

import { AXIS, LEFT, RIGHT, ends, setUp, timeAxis, valueAxis, write } from './axes.js';
import { drawnCurves } from './curves.js';

/**
 * @typedef {import('./sky.js').Sky} Sky
 * @typedef {import('./passes.js').Pass} Pass
 * @typedef {import('./view.js').View} View
 * @typedef {import('./axes.js').Pen} Pen
 * @typedef {import('./curves.js').Drawn} Drawn
 */

const PLOT = 250, ROW = 20;

/** @type {Record<string, string>} */
const NOTHING = {
  cn0: 'No dumps here: a search asks for them, a script by “T counts S N”.',
  prompt: 'No dumps here: a search asks for them, a script by “T counts S N”.',
  sizes: 'No dumps here: a search asks for them, a script by “T counts S N”.',
};

/**
 * Draws values over time.
 * @param {HTMLCanvasElement} canvas
 * @param {Sky} sky
 * @param {View} view
 * @param {string} what
 * @param {Pass | null} source whose sums are drawn
 */
export function drawPlot(canvas, sky, view, what, source) {
  const { pen, width, height } = setUp(canvas, PLOT);
  const x = timeAxis(pen, view, sky.rate, width, height);
  const seen = drawnCurves(sky, what, source, view).filter((it) => it.points.length);
  if (!seen.length) {
    write(pen, NOTHING[what] ?? 'No states here: a script asks by “T state S”.', LEFT + 8, ROW);
    return;
  }
  const points = seen.flatMap((it) => it.points);
  const box = { left: LEFT, right: width - RIGHT, top: 4, bottom: height - AXIS - 2 };
  const least = points.reduce((low, it) => Math.min(low, it[1]), Infinity);
  const greatest = points.reduce((high, it) => Math.max(high, it[2]), -Infinity);
  const y = valueAxis(pen, ends(least, greatest, what === 'cn0' ? 1 : 2), box);
  pen.save();
  pen.beginPath();
  pen.rect(box.left, box.top, box.right - box.left, box.bottom - box.top);
  pen.clip();
  for (const it of seen) drawCurve(pen, it, x, y);
  pen.restore();
  names(pen, seen.map((it) => ({ ...it, y: y(it.points[it.points.length - 1][1]) })), box);
}

/**
 * Draws a curve.
 * @param {Pen} pen @param {Drawn} curve @param {(time: number) => number} x
 * @param {(value: number) => number} y
 */
export function drawCurve(pen, { colour, points, isJoined }, x, y) {
  pen.strokeStyle = pen.fillStyle = colour;
  pen.lineWidth = 1.5;
  if (isJoined) {
    pen.beginPath();
    points.forEach(([time, low, high], at) => {
      if (at) pen.lineTo(x(time), y(low));
      else pen.moveTo(x(time), y(low));
      if (high !== low) pen.lineTo(x(time), y(high));
    });
    pen.stroke();
  }
  if (isJoined && points.length > 60) return;
  const size = isJoined ? 4 : 1.5;
  for (const [time, low, high] of points) {
    pen.fillRect(x(time) - size / 2, y(high) - size / 2, size, y(low) - y(high) + size);
  }
}

/**
 * Writes the names of curves beside their ends, one below the other.
 * @param {Pen} pen @param {(Drawn & { y: number })[]} curves
 * @param {{ right: number, top: number, bottom: number }} box
 */
function names(pen, curves, { right, top, bottom }) {
  const ordered = [...curves].sort((a, b) => a.y - b.y);
  let last = top - 7;
  ordered.forEach((it, at) => {
    const lowest = bottom - 13 * (ordered.length - 1 - at) - 6;
    last = Math.max(last + 13, Math.min(it.y, lowest));
    write(pen, it.name, right + 6, last, 'left', it.colour);
  });
}
