// A recording with all that one has to know of it, and the sentences for what can't be read.

import { FLAG, FORMAT, KIND } from './worker_job.js';
import { Failure, shown } from './failures.js';

/** The carrier L1 in Hz. */
export const CARRIER = 1575420000;
/** The fewest and the most samples a second that the receiver takes. */
export const LEAST_RATE = 2046000, GREATEST_RATE = 20000000;

/** The bits of a value of each kind that is packed. */
export const VALUES = new Map([
  ['u8', 8], ['i8', 8], ['i16', 16], ['i16be', 16], ['f32', 32], ['bits2-low', 2],
  ['bits2-sm-low', 2], ['bits1-low', 1], ['bits1-high', 1],
]);
/** The bits of a sample of each packing of the receiver. */
export const FORMATS = new Map([['real1', 1], ['real2', 2], ['iq1', 2], ['iq2', 4]]);
const FORMAT_NAMES = [...FORMATS.keys()], VALUE_NAMES = [...VALUES.keys()];
// What the packings that are kinds too are called as kinds.
/** @type {Record<string, string>} */
const ALIASES = { real1: 'bits1-high', iq1: 'iq-bits1-high' };
/** All kinds: the packings, then values alone, then pairs. */
export const KINDS = [...FORMAT_NAMES, ...VALUE_NAMES, ...VALUE_NAMES.map((it) => `iq-${it}`)];

/**
 * Whether a kind is of pairs.
 * @param {string} kind
 */
export const isPaired = (kind) => kind.startsWith('iq');

/**
 * The bits of a sample of a kind in its file.
 * @param {string} kind
 * @returns {number}
 */
export function bitsOf(kind) {
  const packed = FORMATS.get(kind);
  if (packed !== undefined) return packed;
  const bits = VALUES.get(kind.replace(/^iq-/, ''));
  if (bits === undefined) throw new Failure(`${shown(kind)} is no kind of recording.`);
  return isPaired(kind) ? 2 * bits : bits;
}

/**
 * What is asked of a recording, as the form has it. Numbers are texts.
 * @typedef {object} Asked
 * @property {string} kind
 * @property {string} rate in samples a second
 * @property {string} offset where 1575.42 MHz lies, in Hz
 * @property {string} bits a part: 1 or 2, for what has to be packed
 * @property {string} threshold
 * @property {string} centre empty for that of the kind
 * @property {string} centreQ empty for that of the part in phase
 * @property {boolean} isSwapped whether the part in quadrature comes first
 * @property {boolean} isInverted whether the spectrum is turned round
 * @property {string} skip samples to leave out
 * @property {string} count samples to take at most; empty for all
 */

/**
 * What the bank is told of a recording, as `worker_job.js` has it. `threshold2`, `centre2` and
 * `centreQ2` are twice the values.
 * @typedef {{ rate: number, offset: number, format: number, skip: number, count: number | null,
 *   kind: number, flags: number, threshold2: number, centre2: number, centreQ2: number }} Job
 */

/**
 * The job of what is asked, or a `Failure`.
 * @param {Asked} asked
 * @returns {Job}
 */
export function jobOf(asked) {
  const rate = integer(asked.rate, LEAST_RATE, GREATEST_RATE, 'The rate in samples a second');
  const most = Math.floor(rate / 2);
  const meant = integer(asked.offset, -most, most, 'The offset in Hz, at most half of the rate,');
  const skip = integer(asked.skip || '0', 0, 2 ** 40, 'The number of samples to leave out');
  const count = asked.count === '' ? null
    : integer(asked.count, 1, 2 ** 40, 'The number of samples to take');
  const isTurned = asked.isInverted && isPaired(asked.kind);
  // A frequency F becomes -F where the spectrum is turned round.
  const offset = (asked.isInverted ? -meant : meant) + 0;
  const base = { rate, offset, skip, count };
  if (FORMATS.has(asked.kind) && !isTurned && !(asked.isSwapped && isPaired(asked.kind))) {
    const format = FORMAT[/** @type {keyof typeof FORMAT} */ (asked.kind)];
    return { ...base, format, kind: KIND.packed, flags: 0, threshold2: 0, centre2: 0,
      centreQ2: 0 };
  }
  return { ...base, ...packingOf(asked, isTurned) };
}

/** @param {Asked} asked @param {boolean} isTurned */
function packingOf(asked, isTurned) {
  const kind = FORMATS.has(asked.kind) ? ALIASES[asked.kind] : asked.kind;
  if (!kind) throw new Failure(`${asked.kind} can’t be turned round: pack the recording anew.`);
  bitsOf(kind);
  const pairs = isPaired(kind), value = kind.replace(/^iq-/, '');
  const isTwo = asked.bits === '2' && !FORMATS.has(asked.kind);
  if (isTwo && VALUES.get(value) === 1) {
    throw new Failure('Values of one bit have no sizes: choose one bit a part.');
  }
  const usual = value === 'u8' ? 255 : 0, isFloat = value === 'f32';
  const centre2 = isFloat ? 0 : halves(asked.centre, usual, 'The centre');
  return {
    format: (pairs ? 2 : 0) + (isTwo ? 1 : 0),
    kind: KIND[/** @type {keyof typeof KIND} */ (value)],
    flags: (pairs ? FLAG.paired : 0) | (pairs && asked.isSwapped ? FLAG.swapped : 0)
      | (isTurned ? FLAG.conjugate : 0),
    threshold2: isTwo ? thresholdOf(asked.threshold, isFloat) : 0,
    centre2,
    centreQ2: isFloat ? 0 : halves(asked.centreQ, centre2, 'The centre in quadrature'),
  };
}

/** @param {string} word @param {number} low @param {number} high @param {string} name */
function integer(word, low, high, name) {
  const value = Number(word);
  if (!/^-?[0-9]{1,13}$/.test(word.trim()) || value < low || value > high) {
    throw new Failure(`${name} is a whole number from ${low} to ${high}.`);
  }
  return value + 0;
}

/** @param {string} word @param {number} usual @param {string} name */
function halves(word, usual, name) {
  if (word.trim() === '') return usual;
  const twice = 2 * Number(word);
  if (!/^-?[0-9]{1,7}(\.[05])?$/.test(word.trim()) || Math.abs(twice) > 2000001) {
    throw new Failure(`${name} is a number or a number and a half, as 127.5.`);
  }
  return twice;
}

/** @param {string} word @param {boolean} isFloat */
function thresholdOf(word, isFloat) {
  if (word.trim() === '' || !(Number(word) >= 0)) {
    throw new Failure('Two bits a part need a threshold of at least 0: Measure suggests one.');
  }
  if (!isFloat) return halves(word, 0, 'The threshold');
  const nearest = Math.fround(Number(word));
  if (!Number.isFinite(nearest)) throw new Failure('The threshold is too great for a float.');
  return 2 * nearest;
}

/**
 * The bytes of a file that have so many samples of a kind.
 * @param {string} kind
 * @param {number} bytes
 */
const samplesOf = (kind, bytes) => Math.floor((bytes * 8) / bitsOf(kind));

/**
 * The samples that the receiver gets of a file: from `skip` on, at most `count`.
 * @param {string} kind
 * @param {number} bytes
 * @param {{ skip: number, count: number | null }} window
 */
export function samplesToRun(kind, bytes, { skip, count }) {
  const rest = Math.max(0, samplesOf(kind, bytes) - skip);
  return count === null ? rest : Math.min(rest, count);
}

// Ends of names that GNU Radio and other tools give their files.
const OTHER_ENDS = new Map([['c64', 'iq-f32'], ['cfile', 'iq-f32'], ['fc32', 'iq-f32'],
  ['cu8', 'iq-u8'], ['cs8', 'iq-i8'], ['sc8', 'iq-i8'], ['cs16', 'iq-i16'], ['sc16', 'iq-i16']]);

/**
 * The kind that the end of a file's name says, or nothing.
 * @param {string} name
 */
export function kindOf(name) {
  const end = name.toLowerCase().split('.').pop() ?? '';
  return KINDS.includes(end) ? end : OTHER_ENDS.get(end) ?? '';
}

// What other files begin with, so that they aren't taken for samples.
/** @type {[string, number[]][]} */
const OTHERS = [
  ['a picture', [0x89, 0x50, 0x4e, 0x47]], ['a picture', [0xff, 0xd8, 0xff]],
  ['a picture', [0x47, 0x49, 0x46, 0x38]], ['a PDF', [0x25, 0x50, 0x44, 0x46]],
  ['a zip archive', [0x50, 0x4b, 3, 4]], ['a gzip archive', [0x1f, 0x8b, 8]],
  ['an xz archive', [0xfd, 0x37, 0x7a, 0x58, 0x5a]], ['a program', [0x7f, 0x45, 0x4c, 0x46]],
];

/**
 * Sees that a file may be a recording, by its size, its type and its first bytes.
 * @param {number} size
 * @param {string} type as the browser names it
 * @param {Uint8Array} first
 */
export function checkFile(size, type, first) {
  if (!size) throw new Failure('The file is empty.');
  const other = OTHERS.find(([, bytes]) => bytes.every((it, at) => first[at] === it));
  if (other) throw new Failure(`This is no recording of samples, but ${other[0]}.`);
  if (/^(image|video|text)\//.test(type)) {
    throw new Failure(`This is no recording of samples, but ${shown(type)}.`);
  }
}
