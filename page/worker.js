// The worker of the page: a `Job` comes in as a message, and `Report`s go out as messages.

import { answer } from './worker_task.js';

/** @type {any} what a worker has, and no page */
const { FileReaderSync, postMessage } = globalThis;
const files = new FileReaderSync();

addEventListener('message', ({ data: job }) => {
  /** @type {import('./worker_stretch.js').Read} */
  const read = (from, to) => new Uint8Array(files.readAsArrayBuffer(job.file.slice(from, to)));
  answer(job, read, (report) => postMessage(report));
});
