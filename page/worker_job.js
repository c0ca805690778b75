// What the page and its worker say to each other: a `Job` one way, `Report`s the other. The numbers
// in them are named here, and in `wasm/src/numbers.rs`.

/**
 * What is asked. Of a run all fields but those of a packing are needed. `kind` is a number of
 * `KIND`, and `flags` is a sum of `FLAG`. The threshold and the centres are twice their values, of
 * floats too.
 * @typedef {object} Job
 * @property {'run' | 'measure'} task
 * @property {WebAssembly.Module | ArrayBuffer | Uint8Array} wasm the bank
 * @property {{ readonly size: number }} file what is read, in a browser a `Blob`
 * @property {number} [rate] samples a second
 * @property {number} [offset] the frequency in Hz where the carrier lies
 * @property {number} format a number of `FORMAT`
 * @property {string[]} [scripts] the clients' scripts
 * @property {number[]} [shares] the slots of each client; four each where there are none
 * @property {number} [skip] how many samples are left out at the beginning
 * @property {number | null} [count] how many samples are run over at most
 * @property {number} kind what the file has
 * @property {number} [flags] what holds of its values
 * @property {number} [threshold2]
 * @property {number} [centre2]
 * @property {number} [centreQ2]
 */

/**
 * What is told while a run goes on, and at its end. `at` and `size` count bytes of the stretch that
 * is run over. The last report alone has `status` and what is below it here.
 * @typedef {object} Report
 * @property {number} at how many bytes the bank took
 * @property {number} size how many bytes there are
 * @property {number} ms the milliseconds since the run began
 * @property {string} text the lines, cut anywhere, that came since the last report
 * @property {number} memory the bytes of memory that the bank has
 * @property {number} [status] a number of `ENDING`
 * @property {string} [sentence] nothing where all was done, else why it wasn't, for the reader
 * @property {number} [samples] how many samples were run over
 * @property {number} [left] twice the samples at the end that fill no byte, and 1 more where the
 *     file ends inside a sample
 * @property {number} [centre2] twice the centre that is suggested
 * @property {number} [centreQ2] twice that of the part in quadrature
 * @property {number} [threshold2] twice the threshold that is suggested
 */

/** The packings of the receiver, by their names. */
export const FORMAT = { real1: 0, real2: 1, iq1: 2, iq2: 3 };

/** What a file has: samples that are packed already, or values of a kind that `pack` names so. */
export const KIND = {
  packed: 0,
  u8: 1,
  i8: 2,
  i16: 3,
  i16be: 4,
  f32: 5,
  'bits2-low': 6,
  'bits2-sm-low': 7,
  'bits1-low': 8,
  'bits1-high': 9,
};

/** What holds of values: they are pairs, and what is done with these. */
export const FLAG = { paired: 1, swapped: 2, conjugate: 4, quadrature: 8 };

/** How a task ends. Those from 20 on come before the bank is asked, or instead of its answer. */
export const ENDING = {
  Done: 0,
  NoMemory: 1,
  Clients: 2,
  Share: 3,
  Read: 4,
  Write: 5,
  TooLong: 6,
  NotANumber: 7,
  Infinite: 8,
  Nothing: 9,
  Rate: 10,
  Offset: 11,
  Pairs: 12,
  Sizes: 13,
  Part: 14,
  Number: 15,
  Empty: 20,
  Skipped: 21,
  Stretch: 22,
  Bank: 23,
  Broken: 24,
};

/**
 * What is said to the reader of each ending.
 * @type {Record<number, string>}
 */
export const SENTENCES = {
  [ENDING.Done]: '',
  [ENDING.NoMemory]: 'There is not enough memory.',
  [ENDING.Clients]: 'There have to be one to eight scripts.',
  [ENDING.Share]: 'Each script has 1 to 8 slots.',
  [ENDING.Read]: 'The file could not be read: it was changed or removed since it was chosen.',
  [ENDING.Write]: 'The lines could not be taken.',
  [ENDING.TooLong]: 'The recording has more than 2^40 samples.',
  [ENDING.NotANumber]: 'The recording has a float that is no number: is its kind right?',
  [ENDING.Infinite]: 'The recording has a float that is infinite: is its kind right?',
  [ENDING.Nothing]: 'The recording has no whole sample.',
  [ENDING.Rate]: 'The rate has to be 2046000 to 20000000 samples a second.',
  [ENDING.Offset]: 'The offset has to be a whole number of Hz, at most half of the rate.',
  [ENDING.Pairs]: 'Real values have no part in quadrature.',
  [ENDING.Sizes]: 'Values of one bit have no sizes: pack them as one bit a part.',
  [ENDING.Part]: 'One part makes real samples alone.',
  [ENDING.Number]: 'A threshold or a centre is N or N.5, at most 1000000.5.',
  [ENDING.Empty]: 'The file is empty.',
  [ENDING.Skipped]: 'The file ends before the first sample that is asked for.',
  [ENDING.Stretch]: 'The samples to skip and to take have to fill whole bytes of the file.',
  [ENDING.Bank]: 'The receiver bank could not be started.',
  [ENDING.Broken]: 'The receiver bank broke off.',
};
