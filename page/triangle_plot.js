// The drawing of the correlation triangle.

import { AXIS, LEFT, hue, setUp, valueAxis, write } from './axes.js';
import { SMALL } from './cloud.js';
import { drawCurve } from './plot.js';
import { triangle } from './triangle.js';

/**
 * @typedef {import('./sky.js').Sky} Sky
 * @typedef {import('./passes.js').Pass} Pass
 */

/**
 * Draws the mean sizes of early, prompt and late sums over the offset of the code: of all slots
 * that hold the satellite of a pass, or of the pass alone.
 * @param {HTMLCanvasElement} canvas
 * @param {Sky} sky
 * @param {Pass | null} pass
 */
export function drawTriangle(canvas, sky, pass) {
  const { pen, width, height } = setUp(canvas, SMALL);
  const passes = pass?.isHeld
    ? sky.passes.filter((it) => it.isHeld && it.satellite === pass.satellite) : pass ? [pass] : [];
  const points = triangle(passes);
  if (!points.length) {
    write(pen, 'No dumps of whole periods yet.', 8, 20);
    return;
  }
  const box = { left: LEFT, right: width - 12, top: 6, bottom: height - AXIS - 14 };
  const greatest = Math.max(...points.map((it) => it.size));
  const y = valueAxis(pen, { low: 0, high: 1.05 * greatest }, box);
  const reach = Math.max(1, ...points.map((it) => Math.abs(it.offset)));
  /** @param {number} offset */
  const x = (offset) => (box.left + box.right) / 2
    + (offset / (1.1 * reach)) * ((box.right - box.left) / 2);
  for (let at = -Math.floor(reach); at <= reach; at += 0.5) {
    write(pen, `${at}`.replace('-', '\u2212'), x(at), box.bottom + 10, 'center');
  }
  write(pen, 'offset of the code, chips', (box.left + box.right) / 2, height - 8, 'center');
  drawCurve(pen, { name: '', colour: hue(0), isJoined: true,
    points: points.map((it) => [it.offset, it.size, it.size]) }, x, y);
}
