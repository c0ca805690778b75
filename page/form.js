// The form: what is chosen, and how it is read.

import { FORMATS, KINDS, VALUES, isPaired, kindOf } from './recordings.js';
import { any, button, element, input, make, select } from './dom.js';
import { BUILT } from './built.js';
import { Brought } from './brought.js';
import { split } from './scripts.js';

/** @param {string} name @param {string[]} kinds */
const group = (name, kinds) => make('optgroup', { label: name },
  ...kinds.map((it) => new Option(it)));

/** @param {string[]} scripts */
const textOf = (scripts) => scripts.map((it) => it.replace(/\n$/, '')).join('\n--\n');

/** The recording, its kind and tuning, and the scripts, as the reader gives them. */
export class Form {
  constructor() {
    /** @type {File | null} */
    this.recording = null;
    this.brought = new Brought();
    /** The name of the recording that the last metadata is of. */
    this.meant = '';
    this.text = element('text', HTMLTextAreaElement);
    const pairs = KINDS.filter((it) => isPaired(it) && !FORMATS.has(it));
    select('kind').append(group('as the receiver reads it', [...FORMATS.keys()]),
      group('real values, to be packed', [...VALUES.keys()]),
      group('pairs, to be packed', pairs));
    select('kind').onchange = select('bits').onchange = () => this.enable();
    this.text.onscroll = () => { any('refusals').scrollTop = this.text.scrollTop; };
    this.enable();
  }

  /** The kind of the recording. */
  get kind() {
    return select('kind').value;
  }

  /**
   * What is asked of the recording.
   * @returns {import('./recordings.js').Asked}
   */
  asked() {
    return { kind: this.kind, rate: input('rate').value, offset: input('offset').value,
      bits: select('bits').value, threshold: input('threshold').value,
      centre: input('centre').value, centreQ: input('quadrature').value,
      isSwapped: input('swapped').checked, isInverted: input('inverted').checked,
      skip: input('skip').value.trim(), count: input('count').value.trim() };
  }

  /**
   * The scripts of the clients.
   * @returns {string[]}
   */
  scripts() {
    return split(this.text.value);
  }

  /** Lets those fields be filled that count for the kind. */
  enable() {
    const isPacked = FORMATS.has(this.kind), isFloat = this.kind.endsWith('f32');
    const isBits = this.kind.includes('bits');
    select('bits').disabled = isPacked;
    input('threshold').disabled = isPacked || select('bits').value === '1';
    input('centre').disabled = isPacked || isFloat || isBits;
    input('quadrature').disabled = input('centre').disabled || !isPaired(this.kind);
    button('measure').disabled = isPacked;
    input('swapped').disabled = !isPaired(this.kind) || this.kind === 'iq2';
  }

  /**
   * Takes a recording. What came with another one goes. The end of its name may say its kind.
   * @param {File} file
   */
  choose(file) {
    const isMeant = file.name === this.meant;
    if (!isMeant) this.brought.takeBack();
    this.recording = file;
    const kind = isMeant ? '' : kindOf(file.name);
    if (kind) this.brought.put('kind', kind);
    this.#name(isMeant ? '' : kind ? 'rate and offset' : 'kind, rate and offset');
    this.#centre('', '');
    this.enable();
  }

  /** @param {string} unknown what nothing has said of the recording */
  #name(unknown) {
    const file = this.recording;
    if (!file) return;
    const megabytes = file.size / 1e6, size = megabytes.toFixed(megabytes < 10 ? 3 : 0);
    any('name').textContent = `${file.name}, ${size} MB${unknown && `; say its ${unknown}`}`;
  }

  /**
   * Takes what is known of a recording.
   * @param {{ kind: string, rate: number, offset: number }} tuning
   */
  tune({ kind, rate, offset }) {
    this.brought.put('kind', kind);
    this.brought.put('rate', `${rate}`);
    this.brought.put('offset', `${offset}`);
    this.#name('');
    this.enable();
  }

  /**
   * Takes what the metadata of a name say. Their recording may come after them.
   * @param {string} name
   * @param {{ kind: string, rate: number, offset: number }} tuning
   */
  describe(name, tuning) {
    this.tune(tuning);
    this.meant = name.replace(/meta$/i, 'data');
  }

  /**
   * Takes a bundled example, with its recording.
   * @param {import('./built.js').Example} example
   * @param {File} file
   */
  take(example, file) {
    this.choose(file);
    this.tune({ kind: [...FORMATS.keys()][example.format], rate: example.rate,
      offset: example.offset });
    for (const id of ['inverted', 'swapped']) this.brought.put(id, false);
    for (const id of ['skip', 'count']) this.brought.put(id, '');
    this.brought.put('text', textOf(example.scripts));
    const isUsual = example.shares.every((it) => it === 4);
    this.brought.put('shares', isUsual ? '' : example.shares.join(''));
  }

  /**
   * Puts scripts into their field.
   * @param {string[]} scripts
   */
  write(scripts) {
    this.text.value = textOf(scripts);
    any('refusals').textContent = '';
  }

  /**
   * Takes what the bank measured.
   * @param {{ centre2?: number, centreQ2?: number, threshold2?: number }} report
   */
  suggest({ centre2 = 0, centreQ2 = 0, threshold2 = 0 }) {
    this.brought.put('threshold', `${threshold2 / 2}`);
    if (!input('centre').disabled) this.#centre(`${centre2 / 2}`, `${centreQ2 / 2}`);
  }

  /** @param {string} centre @param {string} centreQ */
  #centre(centre, centreQ) {
    input('centre').value = centre;
    input('quadrature').value = isPaired(this.kind) ? centreQ : '';
  }

  /**
   * Puts each refusal beside its line.
   * @param {{ client: number, asked: { number: number }, reason: string }[]} refused
   */
  refuse(refused) {
    const scripts = this.scripts(), texts = Array(this.text.value.split('\n').length).fill('');
    // Before a client's script are those before it, each with its line `--`.
    const before = scripts.map((_, at) => scripts.slice(0, at)
      .reduce((sum, it) => sum + it.split('\n').length + 1, 0));
    for (const { client, asked, reason } of refused) {
      texts[before[client - 1] + asked.number - 1] = reason;
    }
    any('refusals').textContent = `${texts.join('\n')}\n`;
    any('refusals').scrollTop = this.text.scrollTop;
  }

  /**
   * Makes a button for each bundled example.
   * @param {(example: import('./built.js').Example) => void} act
   */
  showExamples(act) {
    for (const example of BUILT?.examples ?? []) {
      const it = make('button', { type: 'button', class: 'plain', id: `example-${example.name}` },
        example.name);
      it.onclick = () => act(example);
      any('examples').append(it);
    }
  }
}
