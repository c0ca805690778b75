// Runs the bank over a file. The file is read as it is needed, by calls out of the WebAssembly that
// return when they are done, so a run is one call.

import { ENDING, SENTENCES } from './worker_job.js';
import { Stretch } from './worker_stretch.js';

/** @typedef {import('./worker_job.js').Job} Job */
/** @typedef {import('./worker_job.js').Report} Report */
/** @typedef {import('./worker_stretch.js').Read} Read */

/** How many milliseconds lie between two reports at least. */
export const PAUSE = 100;

/** How few bytes the bank is given at once where it takes long over them, as while it searches. */
const LEAST = 256;

/** How many slots a client has where nothing is said. */
const SHARE = 4;

/** Why a task can't be done, known before the bank is asked. */
class Refusal extends Error {
  /**
   * @param {number} status a number of `ENDING`
   * @param {unknown} [why] what there is to say beside it
   */
  constructor(status, why) {
    super(why ? SENTENCES[status].replace(/\.$/, ` (${why}).`) : SENTENCES[status]);
    this.status = status;
  }
}

/** A bank that is started, with the file and the reports that belong to it. */
export class Task {
  /**
   * @param {Job} job
   * @param {Read} read
   * @param {(report: Report) => void} report
   */
  constructor(job, read, report) {
    this.job = job;
    this.stretch = new Stretch(read, 0, job.file.size);
    this.report = report;
    this.began = this.told = this.filled = performance.now();
    /** How many bytes the bank was given last. */
    this.given = LEAST;
    this.text = '';
    this.decoder = new TextDecoder('latin1');
    /** @type {any} what the bank exports, from `start` on */
    this.bank = null;
  }

  /** Starts the bank. */
  async start() {
    const page = {
      /** @type {(room: number, most: number) => number} */
      read: (room, most) => this.fill(room, most),
      /** @type {(room: number, count: number) => number} */
      write: (room, count) => {
        this.text += this.decoder.decode(this.room(room, count));
        return count;
      },
    };
    try {
      const { wasm } = this.job;
      const bank = wasm instanceof WebAssembly.Module ? wasm : await WebAssembly.compile(wasm);
      this.bank = (await WebAssembly.instantiate(bank, { page })).exports;
    } catch (why) {
      throw new Refusal(ENDING.Bank, why);
    }
  }

  /**
   * A room in the bank's memory, which may move with each call into the bank.
   * @param {number} at
   * @param {number} count
   */
  room(at, count) {
    return new Uint8Array(this.bank.memory.buffer, at, count);
  }

  /**
   * Fills a room with bytes of the file, and gives how many; -1 where it can't be read. It gives
   * half as many where the bank took long over the last ones, so that it asks, and there is a
   * report, about as often.
   * @param {number} room
   * @param {number} most
   */
  fill(room, most) {
    const now = performance.now();
    if (now - this.told >= PAUSE) this.tell();
    const wanted = now - this.filled > PAUSE / 2 ? this.given / 2 : 2 * this.given;
    this.given = Math.min(most, Math.max(LEAST, wanted));
    try {
      const taken = this.stretch.take(this.given);
      this.room(room, taken.length).set(taken);
      return taken.length;
    } catch {
      return -1;
    } finally {
      this.filled = performance.now();
    }
  }

  /**
   * Reports how far it is.
   * @param {Partial<Report>} [more]
   */
  tell(more) {
    this.told = performance.now();
    this.report({
      at: this.stretch.taken,
      size: this.stretch.to - this.stretch.from,
      ms: this.told - this.began,
      text: this.text,
      memory: this.bank ? this.bank.memory.buffer.byteLength : 0,
      ...more,
    });
    this.text = '';
  }

  /** Finds the stretch of the file that is asked for. */
  find() {
    const { file, skip, count } = this.job;
    if (!file.size) throw new Refusal(ENDING.Empty);
    this.stretch.from = this.stretch.end = skip ? this.bytes(skip) : 0;
    if (this.stretch.from >= file.size) throw new Refusal(ENDING.Skipped);
    const most = count === null || count === undefined ? Infinity : this.bytes(count);
    this.stretch.to = Math.min(file.size, this.stretch.from + most);
  }

  /**
   * How many bytes of the file have so many samples.
   * @param {number} samples
   */
  bytes(samples) {
    const { format, kind, flags = 0 } = this.job;
    const bytes = Number.isInteger(samples) ? this.bank.bytes(samples, format, kind, flags) : -1;
    if (bytes < 0) throw new Refusal(ENDING.Stretch);
    return bytes;
  }

  /** Hands over the scripts. */
  lend() {
    const { scripts = [], shares = scripts.map(() => SHARE) } = this.job;
    if (shares.length !== scripts.length) throw new Refusal(ENDING.Share);
    const encoder = new TextEncoder();
    for (const [client, script] of scripts.entries()) {
      const text = encoder.encode(script);
      const room = this.bank.script(text.length, shares[client]);
      if (!room) throw new Refusal(ENDING.NoMemory);
      this.room(room, text.length).set(text);
    }
  }

  /** Runs, and gives what the last report says. */
  run() {
    const { rate = 0, offset = 0, format, kind, flags = 0 } = this.job;
    const { threshold2 = 0, centre2 = 0, centreQ2 = 0 } = this.job;
    // The bank takes numbers of 32 bits, and would take others modulo 2^32.
    if (rate !== rate >>> 0) throw new Refusal(ENDING.Rate);
    if (offset !== (offset | 0)) throw new Refusal(ENDING.Offset);
    this.find();
    this.lend();
    const { bank } = this;
    const numbers = [rate, offset, format, kind, flags, threshold2, centre2, centreQ2];
    const status = bank.run(...numbers);
    const left = 2 * bank.samples_left() + bank.ends_inside();
    return { status, sentence: SENTENCES[status], samples: bank.samples(), left };
  }

  /** Measures the file, and gives what the last report says. */
  measure() {
    const { bank } = this;
    const { file, kind, flags = 0 } = this.job;
    if (!file.size) throw new Refusal(ENDING.Empty);
    const status = bank.measure(kind, flags);
    const suggested = {
      centre2: bank.centre2(),
      centreQ2: bank.centre_q2(),
      threshold2: bank.threshold2(),
    };
    return { status, sentence: SENTENCES[status], samples: bank.samples(), ...suggested };
  }
}

/**
 * Does a task, and reports on it. It always ends with a report that has a status.
 * @param {Job} job
 * @param {Read} read
 * @param {(report: Report) => void} report
 */
export async function answer(job, read, report) {
  const task = new Task(job, read, report);
  try {
    await task.start();
    task.tell(job.task === 'measure' ? task.measure() : task.run());
  } catch (why) {
    const refusal = why instanceof Refusal ? why : new Refusal(ENDING.Broken, why);
    task.tell({ status: refusal.status, sentence: refusal.message });
  }
}
