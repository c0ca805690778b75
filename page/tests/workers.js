// Workers for tests in Node: those that a test speaks for, and those that run the bank.

import { answer } from '../worker_task.js';

/** @typedef {import('../worker_job.js').Report} Report */

/** A worker that a test speaks for. All that were made since `begin` are in `made`. */
export class Spoken {
  /** @type {Spoken[]} */
  static made = [];

  /** Forgets those that were made. */
  static begin() {
    Spoken.made = [];
  }

  /** @param {string} address */
  constructor(address) {
    this.address = address;
    /** @type {any} the job that it got */
    this.job = null;
    this.isEnded = false;
    /** @type {(event: { data: Partial<Report> }) => void} */
    this.onmessage = () => {};
    /** @type {(event: { message: string, preventDefault: () => void }) => void} */
    this.onerror = () => {};
    Spoken.made.push(this);
  }

  /** @param {any} job */
  postMessage(job) {
    this.job = job;
  }

  terminate() {
    this.isEnded = true;
  }

  /**
   * Reports.
   * @param {Partial<Report>} report
   */
  tells(report) {
    this.onmessage({ data: { at: 0, size: 100, ms: 0, text: '', memory: 0, ...report } });
  }

  /**
   * Fails. It gives whether the page takes it as its own matter.
   * @param {string} message
   */
  fails(message) {
    let isTaken = false;
    this.onerror({ message, preventDefault: () => { isTaken = true; } });
    return isTaken;
  }
}

/** A worker that does its job in the test's own thread, as the page's does. */
export class Working extends Spoken {
  /** @param {any} job */
  async postMessage(job) {
    this.job = job;
    const bytes = new Uint8Array(await job.file.arrayBuffer());
    const read = (/** @type {number} */ from, /** @type {number} */ to) => bytes.subarray(from, to);
    await answer(job, read, (report) => {
      if (!this.isEnded) this.onmessage({ data: report });
    });
  }
}

/**
 * Puts a kind of workers, and so many processors, in the place of a browser's.
 * @param {typeof Spoken} kind
 * @param {number} processors
 */
export function install(kind, processors) {
  const value = { hardwareConcurrency: processors };
  Object.defineProperty(globalThis, 'navigator', { value, configurable: true });
  Object.assign(globalThis, { Worker: kind });
  Spoken.begin();
}
