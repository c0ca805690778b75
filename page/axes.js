// What all drawings have in common: colours, texts, axes.

import { numberText } from './pages.js';

/** Where the axes of time begin and end, in pixels from the left and from the right. */
export const LEFT = 66, RIGHT = 52;
const FONT = '12px system-ui, sans-serif';
/** The height of the axis of time in pixels. */
export const AXIS = 20;

/** @typedef {CanvasRenderingContext2D} Pen */
/** @typedef {import('./view.js').View} View */

// A custom property with light-dark() isn't a colour to a canvas: an element resolves it.
/** @type {HTMLElement | null} */
let probe = null;
/** @type {Map<string, string>} */
const inks = new Map();

/** Forgets all colours, where the page changed between dark and light. */
export function forgetInks() {
  inks.clear();
}

/**
 * The colour of a custom property of the page's style.
 * @param {string} name
 * @returns {string}
 */
export function ink(name) {
  const known = inks.get(name);
  if (known) return known;
  if (!probe) document.body.append(probe = document.createElement('i'));
  probe.style.color = `var(--${name})`;
  const colour = getComputedStyle(probe).color;
  inks.set(name, colour);
  return colour;
}

/**
 * A colour for the satellite of a number, by the order of their finding.
 * @param {number} rank
 */
export function hue(rank) {
  const isDark = matchMedia('(prefers-color-scheme: dark)').matches;
  return `hsl(${(210 + rank * 137.5) % 360} 62% ${isDark ? 66 : 40}%)`;
}

/**
 * A canvas cleared at its width and a height, with its pen.
 * @param {HTMLCanvasElement} canvas
 * @param {number} height in pixels of the page
 */
export function setUp(canvas, height) {
  const ratio = devicePixelRatio || 1, width = canvas.clientWidth;
  canvas.style.height = `${height}px`;
  canvas.width = Math.round(width * ratio);
  canvas.height = Math.round(height * ratio);
  const pen = canvas.getContext('2d');
  if (!pen) throw new Error('no canvas');
  pen.scale(ratio, ratio);
  pen.font = FONT;
  pen.textBaseline = 'middle';
  return { pen, width, height };
}

/**
 * A step of 1, 2 or 5 times a power of ten, of which a range has at most so many.
 * @param {number} range
 * @param {number} most
 */
function stepOf(range, most) {
  const raw = range / most, power = 10 ** Math.floor(Math.log10(raw)), part = raw / power;
  return power * (part > 5 ? 10 : part > 2 ? 5 : part > 1 ? 2 : 1);
}

/**
 * The text of a value at an axis of such steps.
 * @param {number} value
 * @param {number} step
 */
export function label(value, step) {
  const digits = Math.max(0, Math.min(6, Math.ceil(-Math.log10(step) - 1e-9)));
  return numberText(Number(value.toFixed(digits)) + 0 || 0);
}

/**
 * Writes a text.
 * @param {Pen} pen
 * @param {string} text
 * @param {number} x
 * @param {number} y
 * @param {CanvasTextAlign} [align]
 * @param {string} [colour]
 */
export function write(pen, text, x, y, align = 'left', colour = ink('soft')) {
  pen.fillStyle = colour;
  pen.textAlign = align;
  pen.fillText(text, x, y);
}

/**
 * Draws a line.
 * @param {Pen} pen
 * @param {number} x
 * @param {number} y
 * @param {number} toX
 * @param {number} toY
 * @param {string} [colour]
 */
export function rule(pen, x, y, toX, toY, colour = ink('rule')) {
  pen.strokeStyle = colour;
  pen.lineWidth = 1;
  pen.beginPath();
  pen.moveTo(x, y);
  pen.lineTo(toX, toY);
  pen.stroke();
}

/**
 * Draws the axis of time, in seconds. It says where a time in samples is, in pixels.
 * @param {Pen} pen
 * @param {View} view
 * @param {number} rate samples a second
 * @param {number} width of the canvas
 * @param {number} height of the canvas
 * @returns {(time: number) => number}
 */
export function timeAxis(pen, view, rate, width, height) {
  const wide = Math.max(10, width - LEFT - RIGHT), from = view.from / rate, to = view.to / rate;
  const step = stepOf(to - from || 1, Math.max(2, wide / 90));
  for (let at = Math.ceil(from / step - 1e-9); at * step <= to + 1e-9 * step; at += 1) {
    const x = LEFT + ((at * step - from) / (to - from)) * wide;
    rule(pen, x, 0, x, height - AXIS);
    write(pen, label(at * step, step), x, height - AXIS / 2, 'center');
  }
  write(pen, 's', LEFT + wide + 28, height - AXIS / 2);
  return (time) => LEFT + ((time - view.from) / (view.to - view.from)) * wide;
}

/**
 * Draws an axis of values at the left. It says where a value is, in pixels.
 * @param {Pen} pen
 * @param {{ low: number, high: number }} ends
 * @param {{ left: number, right: number, top: number, bottom: number }} box
 * @returns {(value: number) => number}
 */
export function valueAxis(pen, { low, high }, { left, right, top, bottom }) {
  const step = stepOf(high - low, Math.max(2, (bottom - top) / 40));
  /** @param {number} value */
  const place = (value) => bottom - ((value - low) / (high - low)) * (bottom - top);
  for (let at = Math.ceil(low / step); at * step <= high; at += 1) {
    rule(pen, left, place(at * step), right, place(at * step));
    write(pen, label(at * step, step), left - 6, place(at * step), 'right');
  }
  return place;
}

/**
 * Ends of an axis with some room about values.
 * @param {number} least
 * @param {number} greatest
 * @param {number} room the least that is left on each side
 */
export function ends(least, greatest, room) {
  const more = Math.max(room, (greatest - least) * 0.08);
  return { low: least - more, high: greatest + more };
}
