// What is drawn of a session, and the controls that only change how it looks.

import { FOLLOWS } from './passes.js';
import { KINDS } from './lines.js';
import { LEFT, RIGHT } from './axes.js';
import { STATES, drawTimeline, nameOf, shownSlots } from './timeline.js';
import { TextWindow } from './text.js';
import { absentText, skyRows } from './sky_table.js';
import { any, button, canvas, coloured, input, make, select, setOptions } from './dom.js';
import { drawCloud } from './cloud.js';
import { drawPlot } from './plot.js';
import { drawTriangle } from './triangle_plot.js';
import { pageOptions, pageTable, symbolNodes } from './page_table.js';

/**
 * @typedef {import('./session.js').Session} Session
 * @typedef {import('./view.js').View} View
 * @typedef {import('./passes.js').Pass} Pass
 */

const MOST_ROLLOVERS = 7;

/** The drawings and tables. */
export class Looks {
  /** @param {View} view */
  constructor(view) {
    this.view = view;
    /** Whether there is something new to draw. */
    this.isDirty = true;
    /** @type {Session | null} */
    this.session = null;
    /** @type {TextWindow | null} */
    this.text = null;
    setOptions(select('rollovers'), [['', 'by today'],
      ...numbers(0, MOST_ROLLOVERS)]);
    setOptions(select('client'), [['', 'all'], ...numbers(1, 8)]);
    setOptions(select('slot'), [['', 'all'], ...numbers(0, 7)]);
    setOptions(select('verb'), [['', 'all'], ...KINDS.map((it) => pair(it))]);
    any('key').append(...Object.entries({ ...STATES, subframe: 'a subframe' })
      .filter(([name]) => name !== 'none' && name !== 'stopped')
      .map(([name, text]) => make('span', {}, coloured(name), text)));
    this.#listen();
  }

  #listen() {
    for (const id of ['what', 'source', 'page', 'rollovers']) {
      select(id).onchange = () => { this.isDirty = true; };
    }
    for (const id of ['client', 'slot', 'verb']) select(id).onchange = () => this.#choose();
    input('part').oninput = () => this.#choose();
    /** @param {string} id @param {() => void} act */
    const click = (id, act) => {
      button(id).onclick = () => {
        act();
        this.isDirty = true;
      };
    };
    click('nearer', () => this.view.zoom(0.5));
    click('farther', () => this.view.zoom(2));
    click('whole', () => this.view.all());
    for (const id of ['timeline', 'plot']) this.#zoomable(canvas(id));
    new ResizeObserver(() => { this.isDirty = true; }).observe(document.body);
  }

  /** @param {HTMLCanvasElement} target */
  #zoomable(target) {
    /** @param {MouseEvent} event */
    const place = (event) => Math.max(0, Math.min(1, (event.offsetX - LEFT)
      / Math.max(1, target.clientWidth - LEFT - RIGHT)));
    target.addEventListener('wheel', (event) => {
      event.preventDefault();
      this.view.zoom(event.deltaY > 0 ? 1.25 : 0.8, place(event));
      this.isDirty = true;
    }, { passive: false });
    target.onpointermove = (event) => {
      if (!(event.buttons & 1)) return;
      this.view.move(-event.movementX / Math.max(1, target.clientWidth - LEFT - RIGHT));
      this.isDirty = true;
    };
    target.onkeydown = (event) => {
      /** @type {Record<string, () => void>} */
      const acts = { '+': () => this.view.zoom(0.5), '-': () => this.view.zoom(2),
        0: () => this.view.all(), ArrowLeft: () => this.view.move(-0.2),
        ArrowRight: () => this.view.move(0.2) };
      const act = Object.hasOwn(acts, event.key) ? acts[event.key] : null;
      if (!act || event.ctrlKey || event.metaKey || event.altKey) return;
      event.preventDefault();
      act();
      this.isDirty = true;
    };
  }

  /**
   * Begins with the lines of a session.
   * @param {Session} session
   */
  begin(session) {
    this.session = session;
    this.text = new TextWindow(session.store);
    this.#choose();
  }

  #choose() {
    const { session, text } = this;
    if (!session || !text) return;
    /** @param {string} id */
    const number = (id) => (select(id).value === '' ? null : Number(select(id).value));
    text.choose(session.store, { client: number('client'), slot: number('slot'),
      kind: select('verb').value, part: input('part').value });
    this.isDirty = true;
  }

  /** Draws what is new. It says whether anything was. */
  draw() {
    if (!this.isDirty || document.hidden) return false;
    const { session } = this;
    this.isDirty = false;
    if (!session) {
      any('sky-rows').replaceChildren(make('tr', {}, make('td', { colspan: '10' }, 'None yet.')));
      return true;
    }
    this.view.extend(Math.max(session.whole, session.time));
    this.#tables(session);
    this.#plots(session);
    this.#lines(session);
    return true;
  }

  /** @param {Session} session */
  #tables({ sky }) {
    any('sky-rows').replaceChildren(...skyRows(sky));
    any('absent').textContent = absentText(sky);
    const pages = pageOptions(sky), rollovers = select('rollovers').value;
    setOptions(select('page'), pages.length ? pages : [['', 'no page yet']]);
    const { head, rows, week } = pageTable(sky, select('page').value,
      rollovers === '' ? null : Number(rollovers), new Date());
    any('week').textContent = pages.length ? week
      : 'An ephemeris comes with three subframes, after 18 to 36 s of a satellite’s signal.';
    const names = head.length === 5 ? 2 : 1;
    const heads = head.map((text, at) =>
      make('th', { scope: 'col', class: at < names ? 'name' : '' }, ...symbolNodes(text)));
    any('fields-head').replaceChildren(...(head.length ? [make('tr', {}, ...heads)] : []));
    any('fields-rows').replaceChildren(...rows);
  }

  /** @param {Session} session */
  #plots({ sky, time }) {
    const { view } = this, what = select('what').value;
    const sources = sky.passes.filter((it) => it.sums.length > 0);
    const options = sources.map((it, at) => /** @type {[string, string]} */ (
      [`${at}`, `${nameOf(it)} from ${(it.begun / sky.rate).toFixed(1)} s`]));
    setOptions(select('source'), options.length ? options : [['', 'no dumps yet']]);
    select('source').disabled = !options.length;
    const source = sources[Number(select('source').value)] ?? null;
    any('pair').hidden = !source;
    drawTimeline(canvas('timeline'), sky, view, time);
    drawPlot(canvas('plot'), sky, view, what, source);
    const { dumps, drawn } = drawCloud(canvas('cloud'), source, view);
    drawTriangle(canvas('triangle'), sky, source);
    const name = source ? `, ${nameOf(source)}` : '';
    any('cloud-title').textContent = `Prompt sums, QP over IP${name}: ${drawn === dumps
      ? `${dumps} dumps` : `${drawn} of ${dumps} dumps`}`;
    any('triangle-title').textContent = `Mean sizes of early, prompt and late sums${name}`;
    canvas('timeline').setAttribute('aria-label', spoken(sky));
    canvas('plot').setAttribute('aria-label',
      `${select('what').selectedOptions[0].text} over time; the last values are in the table`);
  }

  /** @param {Session} session */
  #lines({ store }) {
    const { text } = this;
    if (!text) return;
    // What wasn't looked at yet is at the next drawing.
    if (text.look()) this.isDirty = true;
    text.draw();
    const { length } = text.chosen;
    any('many').textContent = length === store.length ? `${length} lines`
      : `${length} of ${store.length} lines`;
  }
}

/** @param {number} first @param {number} last @returns {[string, string][]} */
const numbers = (first, last) => Array.from({ length: last - first + 1 }, (_, at) =>
  pair(`${first + at}`));

/** @param {string} text @returns {[string, string]} */
const pair = (text) => [text, text];

/**
 * What a screen reader says of the slots.
 * @param {import('./sky.js').Sky} sky
 */
function spoken(sky) {
  const parts = shownSlots(sky).filter((it) => it.pass && FOLLOWS.includes(it.pass.state))
    .map((it) => (it.pass ? `${nameOf(it.pass)} ${STATES[it.pass.state]}` : ''));
  return `Slots over time: ${parts.join('; ') || 'nothing yet'}. Plus and minus zoom, arrows move.`;
}
