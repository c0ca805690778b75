// The stretch of time that the drawings show.

/** The stretch of time that is seen, in samples. */
export class View {
  constructor() {
    this.whole = 1;
    this.from = 0;
    this.to = 1;
    /** Whether all is seen, so that what comes is seen too. */
    this.follows = true;
  }

  /**
   * All that there is, in samples.
   * @param {number} whole
   */
  extend(whole) {
    this.whole = Math.max(1, whole);
    if (this.follows) this.all();
  }

  /** Shows all. */
  all() {
    [this.from, this.to, this.follows] = [0, this.whole, true];
  }

  /**
   * Shows so many times as much as before, about a part of what is seen.
   * @param {number} times
   * @param {number} [at] 0 is its beginning and 1 its end
   */
  zoom(times, at = 0.5) {
    const range = Math.min(this.whole, Math.max(100, (this.to - this.from) * times));
    const middle = this.from + at * (this.to - this.from);
    this.#show(middle - at * range, range);
    this.follows = range >= this.whole;
  }

  /**
   * Moves by a part of what is seen.
   * @param {number} part
   */
  move(part) {
    const range = this.to - this.from;
    this.#show(this.from + part * range, range);
  }

  /** @param {number} from @param {number} range */
  #show(from, range) {
    this.from = Math.max(0, Math.min(this.whole - range, from));
    this.to = this.from + range;
  }
}
