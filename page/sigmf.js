// What the metadata of a SigMF recording says of its samples.

import { CARRIER, GREATEST_RATE, LEAST_RATE } from './recordings.js';
import { Failure, shown } from './failures.js';

// What a kind is called by a core:datatype, after its first letter.
/** @type {Record<string, string>} */
const NUMBERS = { u8: 'u8', i8: 'i8', i16_le: 'i16', i16_be: 'i16be', f32_le: 'f32' };

/**
 * The kind, the rate in samples a second and the offset in Hz of a recording with this metadata.
 * @param {string} metadata
 * @returns {{ kind: string, rate: number, offset: number }}
 */
export function tuningOf(metadata) {
  const whole = object(parsed(metadata), 'the metadata');
  const about = object(member(whole, 'global'), 'global');
  const captures = member(whole, 'captures');
  if (!Array.isArray(captures) || !captures.length) {
    throw new Failure('captures is no list of captures');
  }
  const firsts = captures.map((it) => object(it, 'a capture'));
  const kind = kindOf(member(about, 'core:datatype'));
  if ((about['core:num_channels'] ?? 1) !== 1) throw new Failure('core:num_channels is not 1');
  if (firsts.some((it) => (it['core:header_bytes'] ?? 0) !== 0)) {
    throw new Failure('core:header_bytes is not 0, and samples alone are taken');
  }
  const rate = hertz(about, 'core:sample_rate'), frequency = hertz(firsts[0], 'core:frequency');
  return { kind, rate, offset: offsetOf(rate, frequency) };
}

/** @param {string} text @returns {unknown} */
function parsed(text) {
  try {
    return JSON.parse(text);
  } catch {
    throw new Failure('it isn\'t JSON');
  }
}

/** @param {unknown} value @param {string} name @returns {Record<string, unknown>} */
function object(value, name) {
  if (typeof value !== 'object' || value === null || Array.isArray(value)) {
    throw new Failure(`${name} is no object: is it the metadata of a SigMF recording?`);
  }
  return /** @type {Record<string, unknown>} */ (value);
}

/** @param {Record<string, unknown>} value @param {string} name @returns {unknown} */
function member(value, name) {
  if (!Object.hasOwn(value, name)) throw new Failure(`there is no ${name}`);
  return value[name];
}

/** @param {unknown} datatype @returns {string} */
function kindOf(datatype) {
  const text = typeof datatype === 'string' ? datatype : JSON.stringify(datatype);
  const number = Object.hasOwn(NUMBERS, text.slice(1)) ? NUMBERS[text.slice(1)] : '';
  if (typeof datatype !== 'string' || !'cr'.includes(text[0] ?? '-') || !number) {
    throw new Failure(`core:datatype ${shown(text)} is not one that is read`);
  }
  return text[0] === 'c' ? `iq-${number}` : number;
}

/** @param {Record<string, unknown>} value @param {string} name @returns {number} */
function hertz(value, name) {
  const number = member(value, name);
  if (typeof number !== 'number' || !Number.isSafeInteger(number)) {
    throw new Failure(`${name} is not a whole number of hertz`);
  }
  return number;
}

/** @param {number} rate @param {number} frequency @returns {number} */
function offsetOf(rate, frequency) {
  if (rate < LEAST_RATE || rate > GREATEST_RATE) {
    throw new Failure(`core:sample_rate ${rate} is not ${LEAST_RATE} to ${GREATEST_RATE}`);
  }
  const offset = CARRIER - frequency;
  if (2 * Math.abs(offset) > rate) {
    throw new Failure(`1575.42 MHz is ${offset} Hz from core:frequency, more than half the rate`);
  }
  return offset;
}
