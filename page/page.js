// The page: its buttons, what is dropped on it, and what is drawn while lines come.

import { PAUSE, Stage } from './stage.js';
import { any, button, element, input, make } from './dom.js';
import { attempt, pause } from './said.js';
import { choose, openLines } from './files.js';
import { BUILT } from './built.js';
import { forgetInks } from './axes.js';

// Milliseconds for which lines are taken at once, and between drawings.
const TAKE = 25, DRAW = 200;
// Milliseconds for which a text that is saved is kept for the browser.
const KEPT = 60000;

const stage = new Stage();

/** Takes lines, and draws what is new, again and again. */
async function live() {
  let drawn = 0;
  for (;;) {
    if (stage.session.pump(TAKE)) stage.looks.isDirty = true;
    if (performance.now() - drawn > DRAW && stage.looks.draw()) drawn = performance.now();
    await pause(stage.session.isBusy ? 0 : PAUSE * 4);
  }
}

/** Saves all lines as a file. */
function save() {
  const text = new Blob(stage.session.store.parts(), { type: 'text/plain' });
  const url = URL.createObjectURL(text);
  make('a', { href: url, download: 'run.lines' }).click();
  setTimeout(() => URL.revokeObjectURL(url), KEPT);
}

/** @param {FileList | null | undefined} files */
function take(files) {
  const all = [...(files ?? [])];
  if (all.length) attempt(() => choose(stage, all));
}

button('search').onclick = () => attempt(() => stage.start(true));
button('run').onclick = () => attempt(() => stage.start(false));
button('measure').onclick = () => attempt(() => stage.measure());
button('stop').onclick = () => attempt(() => stage.stop());
button('save').onclick = save;
stage.form.showExamples((example) => attempt(() => stage.runExample(example)));
element('ask', HTMLFormElement).onsubmit = (event) => event.preventDefault();
input('file').onchange = () => {
  take(input('file').files);
  // The same file may be chosen again.
  input('file').value = '';
};
input('rate').onchange = () => {
  const file = stage.linesFile;
  if (file) attempt(() => openLines(stage, file));
};
addEventListener('dragover', (event) => {
  event.preventDefault();
  document.body.classList.add('over');
});
addEventListener('dragleave', (event) => {
  if (!event.relatedTarget) document.body.classList.remove('over');
});
addEventListener('drop', (event) => {
  event.preventDefault();
  document.body.classList.remove('over');
  take(event.dataTransfer?.files);
});
matchMedia('(prefers-color-scheme: dark)').onchange = () => {
  forgetInks();
  stage.looks.isDirty = true;
};

if (BUILT) {
  // Where the page was built to, the documents aren't beside it.
  for (const link of document.querySelectorAll('a.source')) {
    link.replaceWith(link.textContent ?? '');
  }
  if (BUILT.revision) any('revision').textContent = `Revision ${BUILT.revision}.`;
}
live();
