// Runs of the bank in workers. Each client's lines are those of a receiver alone, so each worker
// runs some of the clients over the whole recording, and their lines are merged.

import { Failure } from './failures.js';
import { Merger } from './merge.js';
import { bitsOf } from './recordings.js';
import { pause } from './said.js';

/**
 * @typedef {import('./worker_job.js').Report} Report
 * @typedef {import('./worker_job.js').Job} WorkerJob
 * @typedef {{ wasm: WebAssembly.Module, worker: string }} Engine the compiled bank, and the address
 *   of the worker's script
 */

/**
 * What the page hears of a run: its lines, how far it is, and that it is over, with a sentence
 * where it didn't come to its end, one about what was left out, and whether it was stopped.
 * @typedef {object} Hears
 * @property {(text: string) => void} lines
 * @property {(samples: number, part: number, ms: number) => void} progress
 * @property {(sentence: string, left: string, isStopped: boolean) => void} over
 */

const MOST_WORKERS = 4;
// The most characters of lines that a run may bring: some seven million lines. A worker can't hear
// the page while it runs, so nothing holds it back, and a tab has some gigabytes of memory.
const MOST_TEXT = 2 ** 28;
// What is said of more.
const TOO_LONG = 'These are more lines than a page can hold, and the run was ended. What'
  + ' came before is shown: ask for fewer dumps, or run the program receiver.';
// Samples that the packer may hold back, and a few more.
const HELD = 1024;

/** A run. */
export class Run {
  /**
   * Starts it.
   * @param {Engine} engine
   * @param {import('./recordings.js').Job} job
   * @param {{ file: Blob, kind: string, scripts: string[], shares: number[] }} what
   * @param {Hears} hears
   */
  constructor(engine, job, what, hears) {
    const { file, scripts, shares } = what;
    const most = Math.min(MOST_WORKERS, navigator.hardwareConcurrency || 1, scripts.length);
    const each = Math.ceil(scripts.length / most), firsts = [];
    for (let first = 0; first < scripts.length; first += each) firsts.push(first);
    this.hears = hears;
    this.bits = bitsOf(what.kind);
    this.merger = new Merger(firsts);
    /** @type {(Report | null)[]} */
    this.reports = firsts.map(() => null);
    this.isOver = false;
    /** The characters that came. */
    this.length = 0;
    /**
     * Reports that came and weren't taken yet.
     * @type {{ at: number, report: Report }[]}
     */
    this.waiting = [];
    /**
     * How it ends when those are taken, where its workers were ended: a sentence, and whether it
     * was stopped.
     * @type {{ sentence: string, isStopped: boolean } | null}
     */
    this.ending = null;
    this.workers = firsts.map((first, at) => {
      const worker = new Worker(engine.worker);
      worker.onmessage = ({ data }) => this.#hear(at, data);
      worker.onerror = (event) => {
        event.preventDefault();
        this.#end(`The bank could not be run (${event.message || 'its worker failed'}).`, false);
      };
      const end = first + each;
      worker.postMessage({ ...job, task: 'run', wasm: engine.wasm, file,
        scripts: scripts.slice(first, end), shares: shares.slice(first, end) });
      return worker;
    });
  }

  /** Stops it. What has come stays. */
  stop() {
    this.#end('', true);
  }

  /** @param {string} sentence @param {boolean} isStopped */
  #end(sentence, isStopped) {
    if (this.isOver || this.ending) return;
    this.ending = { sentence, isStopped };
    for (const worker of this.workers) worker.terminate();
    if (!this.waiting.length) this.#take();
  }

  /** @param {number} at @param {Report} report */
  #hear(at, report) {
    if (this.isOver || this.ending) return;
    this.waiting.push({ at, report });
    this.length += report.text.length;
    if (this.waiting.length === 1) this.#take();
    if (this.length > MOST_TEXT) this.#end(TOO_LONG, false);
  }

  /** Takes the reports that came, and lets the page live between them. */
  async #take() {
    while (this.waiting.length && !this.isOver) {
      this.#merge(this.waiting[0]);
      await pause(0);
      this.waiting.shift();
    }
    if (this.ending && !this.isOver) {
      this.#finish(this.ending.sentence, '', this.ending.isStopped);
    }
  }

  /** @param {{ at: number, report: Report }} it */
  #merge({ at, report }) {
    this.reports[at] = report;
    const isDone = report.status !== undefined;
    try {
      this.merger.push(at, report.text);
    } catch (why) {
      if (!(why instanceof Failure)) throw why;
      this.#finish(why.message, '');
      return;
    }
    this.merger.pass(at, isDone ? Infinity : this.#samples(report.at) - HELD);
    this.#tell();
    if (report.sentence) this.#finish(report.sentence, '');
    else if (this.reports.every((it) => it && it.status !== undefined)) {
      this.#finish('', leftText(report.left ?? 0));
    }
  }

  /** @param {number} bytes */
  #samples(bytes) {
    return Math.floor((bytes * 8) / this.bits);
  }

  #tell() {
    const texts = this.merger.take();
    if (texts.length) this.hears.lines(`${texts.join('\n')}\n`);
    const slowest = this.reports.reduce((a, b) => (!a || !b ? null : a.at < b.at ? a : b));
    if (!slowest) return;
    const ms = Math.max(...this.reports.map((it) => it?.ms ?? 0));
    this.hears.progress(this.#samples(slowest.at), slowest.at / (slowest.size || 1), ms);
  }

  /** @param {string} sentence @param {string} left @param {boolean} [isStopped] */
  #finish(sentence, left, isStopped = false) {
    this.isOver = true;
    for (const worker of this.workers) worker.terminate();
    // A worker that failed has no more lines before those of the others.
    this.workers.forEach((_, at) => this.merger.pass(at, Infinity));
    const texts = this.merger.take();
    if (texts.length) this.hears.lines(`${texts.join('\n')}\n`);
    this.hears.over(sentence, left, isStopped);
  }
}

/** @param {number} left twice the samples that fill no byte, and 1 more for a part of one */
function leftText(left) {
  const parts = [];
  if (left >> 1) parts.push(`samples that fill no byte: ${left >> 1}`);
  if (left & 1) parts.push('a part of a sample');
  return parts.length ? `Left out at the end: ${parts.join(', and ')}.` : '';
}

/**
 * What the bank measures of a recording, or a `Failure`.
 * @param {Engine} engine
 * @param {Pick<WorkerJob, 'kind' | 'flags' | 'format'> & { file: Blob }} job
 * @returns {Promise<Report>}
 */
export function measured(engine, job) {
  return new Promise((resolve, reject) => {
    const worker = new Worker(engine.worker);
    worker.onmessage = ({ data }) => {
      if (data.status === undefined) return;
      worker.terminate();
      if (data.sentence) reject(new Failure(data.sentence));
      else resolve(data);
    };
    worker.onerror = (event) => {
      event.preventDefault();
      worker.terminate();
      reject(new Failure('The bank could not be run.'));
    };
    worker.postMessage({ ...job, task: 'measure', wasm: engine.wasm });
  });
}
