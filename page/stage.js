// What the page shows: the recording that is chosen, the run over it, and the lines of that run.

import { Failure } from './failures.js';
import { Run, measured } from './runs.js';
import { any, button, element, input } from './dom.js';
import { attempt, pause, say, setDone, showFar } from './said.js';
import { checkFile, jobOf, samplesToRun } from './recordings.js';
import { checkScripts, sharesOf } from './scripts.js';
import { engine, recordingOf } from './built.js';
import { Form } from './form.js';
import { Looks } from './looks.js';
import { Session } from './session.js';
import { View } from './view.js';
import { skyScripts } from './searches.js';

/** Milliseconds between two takings of lines. */
export const PAUSE = 8;
// What is said of a search to the end that was in vain.
const NONE = 'No satellite has its bit edge: are kind, rate and offset right, and the offset’s'
  + ' sign? docs/GUIDE.md says what to try when nothing is found.';
// The first bytes of a file, by which others than recordings are known.
const FIRST = 16;

/** One recording, or one file of lines, at a time. */
export class Stage {
  constructor() {
    this.form = new Form();
    this.view = new View();
    this.looks = new Looks(this.view);
    this.session = new Session(1, []);
    /** @type {Run | null} */
    this.run = null;
    /** Counts what was begun, so that what comes late of what was before is left out. */
    this.turn = 0;
    /**
     * The file of lines that is shown.
     * @type {File | null}
     */
    this.linesFile = null;
  }

  /** Stops what goes on. What has come stays. */
  stop() {
    this.turn += 1;
    this.run?.stop();
    this.run = null;
    button('stop').disabled = true;
  }

  /** Stops what goes on, since something else begins in its place. */
  leave() {
    this.session.isLeft = true;
    this.stop();
    setDone(false);
  }

  /** Stops what goes on, and shows nothing of it: it was of another file. */
  clear() {
    this.leave();
    showFar('', 0);
    this.linesFile = null;
    any('refusals').textContent = '';
    this.show(new Session(1, []), 1);
  }

  /**
   * Shows the lines of a session in place of those that are shown.
   * @param {Session} next
   * @param {number} whole samples that there will be
   */
  show(next, whole) {
    this.session = next;
    this.view.whole = Math.max(1, whole);
    this.view.all();
    this.looks.begin(next);
  }

  /** Says that what was begun is done, when all of it is drawn. */
  done() {
    this.looks.isDirty = true;
    this.looks.draw();
    setDone(true);
  }

  /**
   * Sees that a recording is chosen and may be one.
   * @returns {Promise<File>}
   */
  async recording() {
    const file = this.form.recording;
    if (!file) throw new Failure('Choose a recording first, or an example.');
    let first;
    try {
      first = new Uint8Array(await file.slice(0, FIRST).arrayBuffer());
    } catch {
      throw new Failure('The file could not be read: it was changed or removed.');
    }
    checkFile(file.size, file.type, first);
    return file;
  }

  /**
   * Runs scripts over the recording.
   * @param {boolean} isSearch whether it searches for all 32, and the scripts of the form don't
   *     count
   */
  async start(isSearch) {
    showFar('', 0);
    this.leave();
    const mine = this.turn, { form } = this, job = jobOf(form.asked()), { kind } = form;
    const file = await this.recording(), samples = samplesToRun(kind, file.size, job);
    const scripts = isSearch ? skyScripts(job.rate, samples) : form.scripts();
    checkScripts(scripts);
    const shares = sharesOf(isSearch ? '' : input('shares').value, scripts.length);
    const built = await engine();
    if (mine !== this.turn) return;
    this.linesFile = null;
    any('refusals').textContent = '';
    const next = new Session(job.rate, scripts);
    next.whole = samples;
    this.show(next, samples);
    button('stop').disabled = false;
    this.run = new Run(built, job, { file, kind, scripts, shares }, {
      lines: (text) => next.bring(text),
      progress: (at, part, ms) => this.#progress(next, at, part, ms),
      over: (sentence, left, isStopped) => {
        if (next.isLeft) return;
        attempt(() => this.#over(next, isSearch, sentence || left, isStopped));
      },
    });
  }

  /** @param {Session} mine @param {number} at @param {number} part @param {number} ms */
  #progress(mine, at, part, ms) {
    if (mine !== this.session) return;
    mine.time = Math.max(mine.time, at);
    const { rate } = mine.sky, seconds = at / rate;
    const speed = ms > 20 ? (seconds * 1000) / ms : 0;
    showFar(`${seconds.toFixed(1)} of ${(mine.whole / rate).toFixed(1)} s`
      + (speed ? `, ${speed.toFixed(speed < 10 ? 1 : 0)} × real time` : ''), part);
    this.looks.isDirty = true;
  }

  /**
   * @param {Session} mine @param {boolean} isSearch @param {string} sentence
   * @param {boolean} isStopped
   */
  async #over(mine, isSearch, sentence, isStopped) {
    while (mine.isBusy && !mine.isLeft) await pause(PAUSE);
    if (mine.isLeft) return;
    const last = mine.end(), { refused } = mine.sky.answers;
    button('stop').disabled = true;
    if (isStopped) any('far').textContent += ', stopped';
    if (!isSearch) this.form.refuse(refused);
    if (!isSearch && refused.length) element('scripts', HTMLDetailsElement).open = true;
    const lines = !isSearch && refused.length ? `Lines that were refused: ${refused.length}.` : '';
    const none = isSearch && mine.sky.ends && !mine.sky.passes.some((it) => it.bits !== null)
      ? NONE : '';
    say([sentence, last && `The lines can’t be read: ${last}.`, lines, none].filter(Boolean)
      .join(' '));
    this.done();
  }

  /**
   * Runs an example.
   * @param {import('./built.js').Example} example
   */
  async runExample(example) {
    this.clear();
    const mine = this.turn, file = await recordingOf(example);
    if (mine !== this.turn) return;
    this.form.take(example, file);
    await this.start(false);
  }

  /** Puts the centre and the threshold that the bank measures into their fields. */
  async measure() {
    const file = await this.recording();
    const { kind, flags, format } = jobOf({ ...this.form.asked(), bits: '1', threshold: '' });
    const report = await measured(await engine(), { kind, flags, format, file });
    if (file === this.form.recording) this.form.suggest(report);
  }
}
