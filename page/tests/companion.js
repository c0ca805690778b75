// What the companion in python/ says, for tests to compare with, and the examples of the checkout.

import { execFileSync } from 'node:child_process';
import { readFileSync } from 'node:fs';
import { fileURLToPath } from 'node:url';

const TOP = fileURLToPath(new URL('../..', import.meta.url));
const MOST = 1 << 28;

/** The names of the examples whose printed lines are in the checkout. */
export const EXAMPLES = ['all32', 'busy_bank', 'crystal', 'hold_counts', 'real_message',
  'three_satellites', 'track_message', 'zero_if'];

/** A file of the checkout as text. @param {string} path */
export const textOf = (path) => readFileSync(`${TOP}/${path}`, 'latin1');

/** The lines of an example. @param {string} name */
export const expected = (name) => textOf(`examples/${name}.expected`);

/**
 * What a command of the companion prints, given a standard input.
 * @param {string[]} words
 * @param {string} input
 */
export function companion(words, input) {
  return execFileSync(`${TOP}/seldomplough`, words,
    { input, encoding: 'utf8', maxBuffer: MOST, stdio: ['pipe', 'pipe', 'ignore'] });
}

/**
 * The value that a text of Python with the companion's modules prints as JSON.
 * @param {string} text
 * @param {string} input
 */
export function python(text, input) {
  const env = { ...process.env, PYTHONPATH: `${TOP}/python`, PYTHONDONTWRITEBYTECODE: '1' };
  return JSON.parse(execFileSync('python3', ['-c', text],
    { input, encoding: 'utf8', env, maxBuffer: MOST }));
}

/** The sentence with which the companion refuses lines. @param {string} input */
export function refusal(input) {
  return python(
    'import sys, json\n'
    + 'from seldomplough.lines import read\n'
    + 'from seldomplough.failures import Failure\n'
    + 'said = []\n'
    + 'try:\n'
    + '    count = sum(1 for _ in read(iter([sys.stdin.read()]), said.append))\n'
    + '    text = said[0] if said else ""\n'
    + 'except Failure as why:\n'
    + '    text = why.text\n'
    + 'print(json.dumps(text))\n', input);
}
