// Numbers over time in typed arrays, with the least and the greatest of each block, so that ten
// million of them are drawn by blocks where a pixel has many.

const ROWS = 1024;

/** A block of rows: their times, their values column by column, and the ends of these. */
class Block {
  /** @param {number} columns */
  constructor(columns) {
    this.times = new Float64Array(ROWS);
    this.values = Array.from({ length: columns }, () => new Float32Array(ROWS));
    this.least = new Float64Array(columns).fill(Infinity);
    this.greatest = new Float64Array(columns).fill(-Infinity);
    this.count = 0;
  }
}

/** Rows of values by time, which never goes back. */
export class Series {
  /** @param {number} [columns] values of a row, 1 if not given */
  constructor(columns = 1) {
    this.columns = columns;
    this.length = 0;
    /** @type {Block[]} */
    this.blocks = [];
  }

  /**
   * Adds a row.
   * @param {number} time in samples
   * @param {...number} values
   */
  push(time, ...values) {
    let block = this.blocks[this.blocks.length - 1];
    if (!block || block.count === ROWS) this.blocks.push(block = new Block(this.columns));
    block.times[block.count] = time;
    for (let column = 0; column < this.columns; column += 1) {
      const value = values[column];
      block.values[column][block.count] = value;
      if (value < block.least[column]) block.least[column] = value;
      if (value > block.greatest[column]) block.greatest[column] = value;
    }
    block.count += 1;
    this.length += 1;
  }

  /**
   * The time of a row.
   * @param {number} at
   */
  time(at) {
    return this.blocks[Math.floor(at / ROWS)].times[at % ROWS];
  }

  /**
   * A value of a row.
   * @param {number} at
   * @param {number} [column]
   */
  value(at, column = 0) {
    return this.blocks[Math.floor(at / ROWS)].values[column][at % ROWS];
  }

  /**
   * The first row at or after a time; `length` where there is none.
   * @param {number} time
   */
  find(time) {
    let low = 0, high = this.length;
    while (low < high) {
      const middle = (low + high) >> 1;
      if (this.time(middle) < time) low = middle + 1;
      else high = middle;
    }
    return low;
  }

  /**
   * The rows of a column for a drawing: each row where there are few; else the least and the
   * greatest of each block, or of each few of them. `draw` gets the time and both.
   * @param {number} from the first row
   * @param {number} to the row after the last one
   * @param {number} column
   * @param {number} most about how often `draw` may be called
   * @param {(time: number, least: number, greatest: number) => void} draw
   */
  thinned(from, to, column, most, draw) {
    const group = Math.max(1, Math.ceil((to - from) / most));
    if (group >= ROWS) return this.#byBlocks(from, to, column, Math.ceil(group / ROWS), draw);
    for (let at = from; at < to; at += group) {
      let least = Infinity, greatest = -Infinity;
      for (let row = at; row < Math.min(to, at + group); row += 1) {
        const value = this.value(row, column);
        if (value < least) least = value;
        if (value > greatest) greatest = value;
      }
      draw(this.time(at), least, greatest);
    }
  }

  /**
   * @param {number} from @param {number} to @param {number} column @param {number} group
   * @param {(time: number, least: number, greatest: number) => void} draw
   */
  #byBlocks(from, to, column, group, draw) {
    const last = Math.ceil(to / ROWS);
    for (let at = Math.floor(from / ROWS); at < last; at += group) {
      let least = Infinity, greatest = -Infinity;
      for (const block of this.blocks.slice(at, Math.min(last, at + group))) {
        least = Math.min(least, block.least[column]);
        greatest = Math.max(greatest, block.greatest[column]);
      }
      draw(this.blocks[at].times[0], least, greatest);
    }
  }
}
