// The drawing of what each slot did over time.

import { AXIS, LEFT, RIGHT, ink, setUp, timeAxis, write } from './axes.js';
import { FOLLOWS } from './passes.js';

/**
 * @typedef {import('./sky.js').Sky} Sky
 * @typedef {import('./passes.js').Slot} Slot
 * @typedef {import('./view.js').View} View
 * @typedef {import('./axes.js').Pen} Pen
 */

/** What the states of a slot are called, in the order of the key. */
export const STATES = {
  searching: 'searching', tracking: 'tracking', locked: 'locked',
  edge: 'bit edge found', holding: 'held', lost: 'lost', none: 'not found',
  stopped: 'stopped',
};
const ROW = 20, BAR = 14;

/**
 * The slots that are shown: those that had a satellite's signal, and those whose first search is
 * under way.
 * @param {Sky} sky
 * @returns {Slot[]}
 */
export function shownSlots(sky) {
  const slots = sky.ordered();
  return slots.filter((it) => it.hasFound
    || (it.spans.length === 1 && it.spans[0].state === 'searching'));
}

/**
 * What a slot is called: by its satellite, and by its client and number.
 * @param {{ client: number, slot: number, satellite: number | null }} it
 */
export function nameOf(it) {
  const satellite = it.satellite === null ? 'PRN ?' : `PRN ${it.satellite}`;
  return `${satellite} (${it.client}.${it.slot})`;
}

/**
 * Draws what each slot did over time.
 * @param {HTMLCanvasElement} canvas
 * @param {Sky} sky
 * @param {View} view
 * @param {number} now up to which sample it is known
 */
export function drawTimeline(canvas, sky, view, now) {
  const slots = shownSlots(sky), height = Math.max(2, slots.length) * ROW + AXIS + 4;
  const { pen, width } = setUp(canvas, height);
  const x = timeAxis(pen, view, sky.rate, width, height);
  if (!slots.length) write(pen, 'Nothing yet.', LEFT + 8, ROW);
  slots.forEach((slot, at) => {
    const y = at * ROW + 3, satellite = slot.pass?.satellite;
    write(pen, `PRN ${satellite ?? '?'}`, 2, y + BAR / 2, 'left', ink('ink'));
    write(pen, `${slot.client}.${slot.slot}`, width - RIGHT + 8, y + BAR / 2);
    pen.save();
    pen.beginPath();
    pen.rect(LEFT, 0, width - LEFT - RIGHT, height);
    pen.clip();
    drawSlot(pen, slot, x, y, { from: view.from, to: view.to, now });
    pen.restore();
  });
}

/**
 * @param {Pen} pen @param {Slot} slot @param {(time: number) => number} x @param {number} y
 * @param {{ from: number, to: number, now: number }} seen
 */
function drawSlot(pen, slot, x, y, seen) {
  slot.spans.forEach((span, at) => {
    const to = slot.spans[at + 1]?.time ?? seen.now;
    if (to < seen.from || span.time > seen.to) return;
    const isBar = FOLLOWS.includes(span.state) || span.state === 'searching';
    pen.fillStyle = ink(span.state);
    if (isBar) pen.fillRect(x(span.time), y, Math.max(0.75, x(to) - x(span.time)), BAR);
    if (span.state === 'lost') pen.fillRect(x(span.time) - 1, y - 2, 3, BAR + 4);
  });
  for (const { time, failed } of slot.subframes) {
    if (time < seen.from || time > seen.to) continue;
    pen.fillStyle = ink(failed ? 'bad' : 'subframe');
    pen.fillRect(x(time) - 1, y + 2, 2, BAR - 4);
  }
}
