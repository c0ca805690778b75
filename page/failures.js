// The one way to fail: one plain sentence, which the page shows as it is.

/** What can't be done, in one sentence. */
export class Failure extends Error {}

const LONGEST = 60;

/**
 * Somebody's text on one line: cut where it is long, with escapes for what isn't printable ASCII.
 * @param {string} text
 * @param {number} [longest] in characters, 60 if not given
 * @returns {string}
 */
export function shown(text, longest = LONGEST) {
  const cut = text.length <= longest ? text : `${text.slice(0, longest - 3)}...`;
  return cut.replace(/[^\x20-\x7e]/gu, escapeOf);
}

/** @type {Record<string, string>} */
const NAMED = { '\t': '\\t', '\n': '\\n', '\r': '\\r' };

/** @param {string} character @returns {string} */
function escapeOf(character) {
  const code = character.codePointAt(0) ?? 0, digits = code.toString(16);
  if (character in NAMED) return NAMED[character];
  if (code < 0x100) return `\\x${digits.padStart(2, '0')}`;
  return code < 0x10000 ? `\\u${digits.padStart(4, '0')}` : `\\U${digits.padStart(8, '0')}`;
}
