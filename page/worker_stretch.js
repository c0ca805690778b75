// The stretch of a file that is run over, read piece by piece.

/** How many bytes are read at once. Slices of 16 KiB are twenty times as slow. */
export const PIECE = 1 << 20;

/**
 * Gives the bytes of the file from a place to another, all of them, or throws.
 * @typedef {(from: number, to: number) => Uint8Array} Read
 */

/** A stretch of a file, which the bank takes piece by piece. */
export class Stretch {
  /**
   * @param {Read} read
   * @param {number} from
   * @param {number} to
   */
  constructor(read, from, to) {
    this.read = read;
    this.from = from;
    this.to = to;
    /** Where the bytes end that were read. */
    this.end = from;
    /** Those of them that weren't taken yet. */
    this.piece = new Uint8Array(0);
  }

  /** How many bytes were taken. */
  get taken() {
    return this.end - this.from - this.piece.length;
  }

  /**
   * Takes some bytes, at most so many: none at the end only.
   * @param {number} most
   */
  take(most) {
    if (!this.piece.length && this.end < this.to) {
      const end = Math.min(this.end + PIECE, this.to);
      this.piece = this.read(this.end, end);
      if (this.piece.length !== end - this.end) throw new Error('the file is shorter than it was');
      this.end = end;
    }
    const taken = this.piece.subarray(0, most);
    this.piece = this.piece.subarray(taken.length);
    return taken;
  }
}
