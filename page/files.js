// Files that are chosen or dropped: a recording, its metadata, scripts, lines.

import { Failure, shown } from './failures.js';
import { PAUSE } from './stage.js';
import { any, element } from './dom.js';
import { pause, say, setDone, showFar } from './said.js';
import { Session } from './session.js';
import { jobOf } from './recordings.js';
import { textOf } from './reader.js';
import { tuningOf } from './sigmf.js';

/** @typedef {import('./stage.js').Stage} Stage */

// Bytes of lines that are read at once.
const PIECE = 1 << 20;

/**
 * Opens lines that were made elsewhere.
 * @param {Stage} stage
 * @param {File} file
 */
export async function openLines(stage, file) {
  const { form } = stage, { rate } = jobOf({ ...form.asked(), offset: '0', kind: 'real1',
    skip: '', count: '', isInverted: false, isSwapped: false });
  stage.clear();
  form.recording = null;
  const mine = stage.turn, next = new Session(rate, []);
  stage.linesFile = file;
  any('name').textContent = `${file.name}, lines; times by the rate of ${rate} samples a second`;
  stage.show(next, 1);
  for (let at = 0; at < file.size && !next.sentence; at += PIECE) {
    next.bring(textOf(new Uint8Array(await file.slice(at, at + PIECE).arrayBuffer())));
    while (next.isBusy && mine === stage.turn) await pause(PAUSE);
    if (mine !== stage.turn) return;
    showFar(`${next.store.length} lines`, (at + PIECE) / file.size);
  }
  say(sentenceOf(next, next.end()));
  showFar(`${next.store.length} lines`, 1);
  stage.done();
}

/**
 * What is said of lines that are read.
 * @param {Session} session
 * @param {string} last about what is no line
 */
function sentenceOf(session, last) {
  if (last) return `${last[0].toUpperCase()}${last.slice(1)}. What came before it is shown.`;
  if (!session.store.length) return 'The file has no lines.';
  return session.sky.ends ? '' : 'There is no end line: the lines were cut, or their run was.';
}

/** @param {Stage} stage @param {File} file */
async function readMeta(stage, file) {
  try {
    stage.form.describe(file.name, tuningOf(await file.text()));
  } catch (why) {
    if (why instanceof Failure) {
      throw new Failure(`The SigMF metadata can’t be used: ${why.message}.`);
    }
    throw why;
  }
}

/**
 * Takes files that were chosen or dropped.
 * @param {Stage} stage
 * @param {File[]} files
 */
export async function choose(stage, files) {
  const { form } = stage;
  /** @param {string} end */
  const ending = (end) => files.filter((it) => it.name.toLowerCase().endsWith(end));
  const [meta] = ending('.sigmf-meta'), lines = [...ending('.lines'), ...ending('.expected')];
  const scripts = ending('.script'), wholes = files.filter((it) => it !== meta
    && !scripts.includes(it));
  if (wholes.length > 1) {
    const names = wholes.map((it) => shown(it.name, 30)).join(', ');
    throw new Failure(`One recording, or one file of lines, at a time: ${names}.`);
  }
  const [recording] = lines.length ? [] : wholes;
  setDone(false);
  if (recording) {
    stage.clear();
    form.choose(recording);
  }
  if (scripts.length) {
    const ordered = scripts.sort((a, b) => a.name.localeCompare(b.name, 'en', { numeric: true }));
    form.write(await Promise.all(ordered.map((it) => it.text())));
    element('scripts', HTMLDetailsElement).open = true;
  }
  if (meta) await readMeta(stage, meta);
  if (lines.length) await openLines(stage, lines[0]);
  if (recording) await stage.recording();
}
