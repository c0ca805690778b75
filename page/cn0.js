// C/N0 from the prompt sums of `count` lines, by the moments method.
//
// D. R. Pauluzzi, N. C. Beaulieu: A comparison of SNR estimation techniques for the AWGN channel,
// IEEE Transactions on Communications 48, 2000, where it is called M2M4. With p = I^2 + Q^2 of the
// prompt sums over a code period of 1 ms, and means over a second:
//
//     M2 = mean(p)    M4 = mean(p^2)    signal = sqrt(2 M2^2 - M4)    noise = M2 - signal
//     C/N0 = 10 log10(signal / noise * 1000)

/** The fewest dumps of a second. */
const FEWEST = 100;
/** Code periods, and so dumps, in a second. */
const PERIODS_A_SECOND = 1000;

/** The sums of powers of prompt sums, and of their squares. */
class Moments {
  constructor() {
    this.dumps = 0;
    this.powers = 0;
    this.squares = 0;
  }

  /**
   * Takes the power of the prompt sums of a dump.
   * @param {number} power
   */
  take(power) {
    this.dumps += 1;
    this.powers += power;
    this.squares += power * power;
  }

  /** The C/N0 in dB-Hz, null where the signal isn't above 0. */
  get density() {
    if (!this.dumps) return null;
    const m2 = this.powers / this.dumps, m4 = this.squares / this.dumps;
    const signal = Math.sqrt(Math.max(0, 2 * m2 * m2 - m4)), noise = m2 - signal;
    return signal > 0 && noise > 0 ? 10 * Math.log10((signal / noise) * PERIODS_A_SECOND) : null;
  }
}

/**
 * Takes the dumps of one slot, and has its C/N0 of each second. A dump counts where it comes one
 * period after the one before it, so that its sums are over a whole period.
 */
export class Estimator {
  /** @param {number} rate samples a second */
  constructor(rate) {
    this.rate = rate;
    // A Doppler shift of 16 kHz and the loops change a period by less than a hundredth.
    this.tolerance = Math.max(2, rate / 100000);
    this.last = -rate;
    this.second = -1;
    this.moments = new Moments();
  }

  /**
   * Takes the next dump. It says whether the dump is of a whole period.
   * @param {import('./lines.js').Count} line
   * @param {(second: number, dumps: number, density: number | null) => void} tell gets the second
   *   before, once it is over
   */
  feed(line, tell) {
    const second = Math.floor(line.time / this.rate);
    if (second !== this.second) {
      this.settle(tell);
      this.second = second;
    }
    const period = line.time - this.last;
    this.last = line.time;
    const isWhole = Math.abs(period - this.rate / PERIODS_A_SECOND) <= this.tolerance;
    if (isWhole) this.moments.take(line.ip * line.ip + line.qp * line.qp);
    return isWhole;
  }

  /**
   * Tells of the second that is under way, as it is.
   * @param {(second: number, dumps: number, density: number | null) => void} tell
   */
  settle(tell) {
    const { dumps, density } = this.moments;
    if (dumps >= FEWEST) tell(this.second, dumps, density);
    this.moments = new Moments();
  }
}
