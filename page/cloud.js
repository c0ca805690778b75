// The drawing of prompt sums against each other.

import { hue, rule, setUp, write } from './axes.js';

/**
 * @typedef {import('./passes.js').Pass} Pass
 * @typedef {import('./view.js').View} View
 */

/** The height of the small drawings in pixels. */
export const SMALL = 240;
const ROW = 20;
// Points of a cloud.
const MOST_POINTS = 20000;

/**
 * Draws the prompt sums of the time that is seen against each other. It says how many points there
 * are, and how many of them are drawn.
 * @param {HTMLCanvasElement} canvas
 * @param {Pass | null} pass
 * @param {View} view
 * @returns {{ dumps: number, drawn: number }}
 */
export function drawCloud(canvas, pass, view) {
  const { pen, width, height } = setUp(canvas, SMALL), sums = pass?.sums;
  const from = sums?.find(view.from) ?? 0, to = sums?.find(view.to + 1) ?? 0;
  if (!sums || from === to) {
    write(pen, 'No dumps here.', 8, ROW);
    return { dumps: 0, drawn: 0 };
  }
  const step = Math.ceil((to - from) / MOST_POINTS);
  let most = 1, drawnPoints = 0;
  for (let at = from; at < to; at += step) {
    most = Math.max(most, Math.abs(sums.value(at, 2)), Math.abs(sums.value(at, 3)));
  }
  const half = Math.min(width, height) / 2 - 4, scale = half / (1.05 * most);
  const [x, y] = [width / 2, height / 2];
  rule(pen, x - half, y, x + half, y);
  rule(pen, x, y - half, x, y + half);
  write(pen, `IP to ${most}`, x + half + 6, y);
  write(pen, 'QP', x + 5, y - half + 6);
  pen.fillStyle = hue(0);
  pen.globalAlpha = to - from > 2000 ? 0.35 : 0.7;
  for (let at = from; at < to; at += step) {
    pen.fillRect(x + scale * sums.value(at, 2) - 1, y - scale * sums.value(at, 3) - 1, 2, 2);
    drawnPoints += 1;
  }
  pen.globalAlpha = 1;
  return { dumps: to - from, drawn: drawnPoints };
}
