// The one reader of printed lines: typed values of each line, by the names of docs/FORMATS.md and
// of the companion in python/. A line that the receiver can't print is a failure with its number.

import { Failure } from './failures.js';
import { TABLES, greatest, least } from './fields.js';

/**
 * What all lines have: the word after the time, the client's number and the time in samples.
 * @typedef {{ client: number, time: number }} Base
 * @typedef {Base & { slot: number }} OfSlot
 * @typedef {Base & { kind: 'ok' | 'end' }} Plain
 * @typedef {Base & { kind: 'err', refusal: number, reason: string }} Err
 * @typedef {OfSlot & { kind: 'count', ie: number, qe: number, ip: number, qp: number, il: number,
 *   ql: number }} Count six sums of a dump, in phase and in quadrature, early, prompt and late
 * @typedef {OfSlot & { kind: 'acq', satellite: number, found: boolean, bin: number,
 *   half_chip: number, power: number, doppler_from_centre_hz: number,
 *   code_phase_chips: number }} Acq
 * @typedef {OfSlot & { kind: 'lock' | 'unlock' | 'lost' | 'bits' }} Change
 * @typedef {OfSlot & { kind: 'gap', bits: number, late_s: number }} Gap
 * @typedef {boolean | null} Flag null where the word that has it is damaged
 * @typedef {OfSlot & { kind: 'sub', id: number, tow: number, words: (number | null)[],
 *   next_subframe_s: number, words_passed: number, words_failed: number, integrity_status: Flag,
 *   alert: Flag, anti_spoof: Flag }} Sub a word is null where its parity fails
 * @typedef {OfSlot & { kind: 'eph' | 'alm' | 'utc' | 'hlt', values: number[] }} Page
 * @typedef {OfSlot & { kind: 'als', toa: number, healths: number[], toa_s: number }} Als
 * @typedef {OfSlot & { kind: 'msg', hex: string, characters: string }} Msg
 * @typedef {OfSlot & { kind: 'state', mode: 'idle' }} StateIdle
 * @typedef {OfSlot & { kind: 'state', mode: 'acquire', satellite: number, done: number,
 *   cells: number }} StateAcquire
 * @typedef {OfSlot & { kind: 'state', mode: 'hold', satellite: number, dumps: number }} StateHold
 * @typedef {OfSlot & { kind: 'state', mode: 'track', satellite: number, dumps: number, v: number,
 *   w: number, stage: 'open' | 'lock' | 'bits', doppler_hz: number,
 *   code_correction_chips_per_s: number }} StateTrack
 * @typedef {StateIdle | StateAcquire | StateHold | StateTrack} State
 * @typedef {Count | Acq | Change | Gap | Sub | Page | Als | Msg | State} SlotLine
 * @typedef {Plain | Err | SlotLine} Line
 */

/** What each refusal says: the table of docs/FORMATS.md. */
const REFUSALS = [
  '',
  'the line is longer than 80 bytes',
  'a byte outside 20 to 7E hexadecimal, such as a tab or a carriage return',
  'the first word isn\'t a time, 1 to 13 digits, at most 2^40',
  'the time is before that of the line before',
  'no verb, or an unknown one',
  'another number of words than the verb takes',
  'a word is no number',
  'a number is out of its range',
  'the slot isn\'t idle',
  'the slot is idle',
];

/** Bits of a message in a second, seconds of a subframe, and Hz between bins of a search. */
const BITS_A_SECOND = 50, SECONDS_A_SUBFRAME = 6, HZ_A_BIN = 250;
/** Data bits of a word. */
const DATA_BITS = 24;
/** Shifts count parts of a Hz or of a chip a second. */
const PARTS = 65536;
/** Seconds of the unit in which `als` has its time. */
const TOA_SCALE = 4096;

// An integer as it is printed: no zeros in front, no sign of zero.
const NATURAL = '(0|[1-9][0-9]{0,17})';
const SIGNED = '(0|-?[1-9][0-9]{0,17})';
// Merged lines have clients above 8 too.
const CLIENT = '([1-9][0-9]{0,8})';
const TIME = '(0|[1-9][0-9]{0,12})';
const SLOT = '([0-7])';
const SATELLITE = '([1-9]|[12][0-9]|3[0-2])';
const WORD = '([0-9a-f]{6}|------)';

/**
 * @typedef {(words: string[], base: OfSlot) => Line} Maker
 * @typedef {{ pattern: RegExp, make: Maker }} Form
 */
/** @type {Map<string, Form[]>} */
const FORMS = new Map();

/** @param {string} kind @param {string} form @param {Maker} make */
function add(kind, form, make) {
  const pattern = new RegExp(`^${CLIENT} ${TIME} ${kind}${form}$`);
  FORMS.set(kind, [...(FORMS.get(kind) ?? []), { pattern, make }]);
}

for (const kind of /** @type {const} */ (['ok', 'end'])) {
  add(kind, '', (_, { client, time }) => ({ kind, client, time }));
}
add('err', ' (10|[1-9])', ([, , , word], { client, time }) =>
  ({ kind: 'err', client, time, refusal: +word, reason: REFUSALS[+word] }));
add('count', ` ${SLOT}${` ${SIGNED}`.repeat(6)}`, (words, base) =>
  ({ kind: 'count', ...base, ie: +words[4], qe: +words[5], ip: +words[6], qp: +words[7],
    il: +words[8], ql: +words[9] }));
add('acq', ` ${SLOT} ${SATELLITE} (found|none) ${SIGNED} ${NATURAL} ${NATURAL}`, (words, base) =>
  ({ kind: 'acq', ...base, satellite: +words[4], found: words[5] === 'found', bin: +words[6],
    half_chip: +words[7], power: +words[8], doppler_from_centre_hz: HZ_A_BIN * +words[6],
    code_phase_chips: +words[7] / 2 }));
for (const kind of /** @type {const} */ (['lock', 'unlock', 'lost', 'bits'])) {
  add(kind, ` ${SLOT}`, (_, base) => ({ kind, ...base }));
}
add('gap', ` ${SLOT} ${NATURAL}`, (words, base) =>
  ({ kind: 'gap', ...base, bits: +words[4], late_s: +words[4] / BITS_A_SECOND }));
add('sub', ` ${SLOT} ([0-7]) ${NATURAL}${` ${WORD}`.repeat(10)}`, (found, base) => {
  const words = found.slice(6).map((it) => (it === '------' ? null : parseInt(it, 16)));
  const words_failed = words.filter((it) => it === null).length;
  return { kind: 'sub', ...base, id: +found[4], tow: +found[5], words,
    next_subframe_s: SECONDS_A_SUBFRAME * +found[5],
    words_passed: words.length - words_failed, words_failed,
    integrity_status: flag(words[0], 23), alert: flag(words[1], 18),
    anti_spoof: flag(words[1], 19) };
});
for (const kind of /** @type {const} */ (['eph', 'alm', 'utc', 'hlt'])) {
  const table = TABLES[kind];
  const words = table.map((it) => ` ${it.name}=${SIGNED}:${it.exponent}`).join('');
  add(kind, ` ${SLOT}${words}`, (found, base) => {
    const values = found.slice(4).map(Number);
    table.forEach((it, at) => check(values[at], least(it), greatest(it), `${it.name}=`));
    return { kind, ...base, values };
  });
}
add('als', ` ${SLOT} toa=${SIGNED}:12${` ${SIGNED}`.repeat(32)}`, (words, base) => {
  const [toa, ...healths] = words.slice(4).map(Number);
  for (const value of [toa, ...healths]) check(value, 0, 255, '');
  return { kind: 'als', ...base, toa, healths, toa_s: TOA_SCALE * toa };
});
add('msg', ` ${SLOT} ([0-9a-f]{44})`, (words, base) =>
  ({ kind: 'msg', ...base, hex: words[4], characters: charactersOf(words[4]) }));
add('state', ` ${SLOT} (track) ${SATELLITE} ${NATURAL} ${SIGNED} ${SIGNED} (open|lock|bits)`,
  (words, base) => ({ kind: 'state', ...base, mode: 'track', satellite: +words[5],
    dumps: +words[6], v: +words[7], w: +words[8],
    stage: /** @type {'open' | 'lock' | 'bits'} */ (words[9]), doppler_hz: +words[7] / PARTS,
    code_correction_chips_per_s: +words[8] / PARTS }));
add('state', ` ${SLOT} (hold) ${SATELLITE} ${NATURAL}`, (words, base) =>
  ({ kind: 'state', ...base, mode: 'hold', satellite: +words[5], dumps: +words[6] }));
add('state', ` ${SLOT} (acquire) ${SATELLITE} ${NATURAL} ${NATURAL}`, (words, base) =>
  ({ kind: 'state', ...base, mode: 'acquire', satellite: +words[5], done: +words[6],
    cells: +words[7] }));
add('state', ` ${SLOT} (idle)`, (_, base) => ({ kind: 'state', ...base, mode: 'idle' }));

/** The words after the time, of all lines. */
export const KINDS = [...FORMS.keys()];

/** @param {number} value @param {number} low @param {number} high @param {string} name */
function check(value, low, high, name) {
  if (value >= low && value <= high) return;
  throw new Failure(`has ${name}${value}, outside ${low} to ${high}`);
}

/**
 * The data bit of a word that has a number, from 1 on (IS-GPS-200, 20.3.3.1 and 20.3.3.2).
 * @param {number | null} word @param {number} number @returns {Flag}
 */
function flag(word, number) {
  return word === null ? null : (word >> DATA_BITS - number & 1) === 1;
}

// The characters of a special message: ASCII, and 370 octal, a degree (IS-GPS-200, 20.3.3.5.1.8).
// A byte that the standard has no character for is U+FFFD.
/** @param {string} hex @returns {string} */
function charactersOf(hex) {
  return (hex.match(/../g) ?? []).map((it) => {
    const code = parseInt(it, 16);
    if (code === 0o370) return '°';
    return code >= 0x20 && code < 0x7f ? String.fromCharCode(code) : '\ufffd';
  }).join('');
}

/**
 * The line of a text, without its line feed. A text that isn't a line is a `Failure`.
 * @param {string} text
 * @returns {Line}
 */
export function parse(text) {
  for (const { pattern, make } of FORMS.get(text.split(' ', 3)[2]) ?? []) {
    const words = pattern.exec(text);
    if (words) return make(words, { client: +words[1], time: +words[2], slot: +words[3] });
  }
  throw new Failure('isn\'t one that the receiver prints');
}
