// The 90 fields of pages: names, sizes, scale factors and units (IS-GPS-200, section 20.3.3).
//
// A field's value is its integer times its scale factor, in the standard's unit. Angles are in
// semicircles there, and in radians by the standard's value of pi.

/**
 * @typedef {object} Field
 * @property {string} name as in a printed line
 * @property {string} symbol as in the standard
 * @property {number} bits how many it has
 * @property {boolean} isSigned whether it is in two's complement
 * @property {number} exponent that of its scale factor, a power of two
 * @property {string} unit the standard's, as `s/s`; empty for a code or a count
 * @property {string} about what it is
 * @property {number} step what the scale factor has besides the power of two
 */

/** The value of pi that the standard gives for these angles (IS-GPS-200, section 20.3.3.4.3). */
const PI = 3.1415926535898;

/**
 * The units of angles, and what they are called in radians.
 * @type {Record<string, string>}
 */
export const RADIANS = { semicircles: 'rad', 'semicircles/s': 'rad/s' };

/** @typedef {[string, string, number, number, string, string, number?]} Row */

/** @param {boolean} isSigned @param {Row} row @returns {Field} */
function field(isSigned, [name, symbol, bits, exponent, unit, about, step = 1]) {
  return { name, symbol, bits, isSigned, exponent, unit, about, step };
}

/** @param {Row} row @returns {Field} */
const unsigned = (...row) => field(false, row);
/** @param {Row} row @returns {Field} */
const signed = (...row) => field(true, row);

/** The clock: subframe 1, table 20-I. */
const CLOCK = [
  unsigned('wn', 'WN', 10, 0, 'weeks', 'week, modulo 1024'),
  unsigned('l2', 'L2', 2, 0, '', 'codes on L2'),
  unsigned('ura', 'URA', 4, 0, '', 'index of the accuracy'),
  unsigned('health', 'health', 6, 0, '', 'health of the satellite; 0 is healthy'),
  unsigned('iodc', 'IODC', 10, 0, '', 'issue of data, clock'),
  unsigned('l2p', 'L2 P', 1, 0, '', 'data flag for L2 P'),
  signed('tgd', 'T_GD', 8, -31, 's', 'group delay'),
  unsigned('toc', 't_oc', 16, 4, 's', 'reference time of the clock'),
  signed('af2', 'a_f2', 8, -55, 's/s²', 'change of the clock’s drift'),
  signed('af1', 'a_f1', 16, -43, 's/s', 'drift of the clock'),
  signed('af0', 'a_f0', 22, -31, 's', 'offset of the clock'),
];

/** The ephemeris: subframes 2 and 3, table 20-III. */
const EPHEMERIS = [
  unsigned('iode', 'IODE', 8, 0, '', 'issue of data, ephemeris'),
  signed('crs', 'C_rs', 16, -5, 'm', 'sine correction of the radius'),
  signed('dn', 'Δn', 16, -43, 'semicircles/s', 'mean motion’s difference'),
  signed('m0', 'M_0', 32, -31, 'semicircles', 'mean anomaly'),
  signed('cuc', 'C_uc', 16, -29, 'rad', 'cosine correction of the argument of latitude'),
  unsigned('e', 'e', 32, -33, 'dimensionless', 'eccentricity'),
  signed('cus', 'C_us', 16, -29, 'rad', 'sine correction of the argument of latitude'),
  unsigned('sqrta', '√A', 32, -19, '√m', 'root of the semi-major axis'),
  unsigned('toe', 't_oe', 16, 4, 's', 'reference time of the ephemeris'),
  unsigned('fit', 'fit', 1, 0, '', 'fit interval flag'),
  unsigned('aodo', 'AODO', 5, 0, 's', 'age of data offset', 900),
  signed('cic', 'C_ic', 16, -29, 'rad', 'cosine correction of the inclination'),
  signed('om0', 'Ω_0', 32, -31, 'semicircles', 'longitude of the ascending node'),
  signed('cis', 'C_is', 16, -29, 'rad', 'sine correction of the inclination'),
  signed('i0', 'i_0', 32, -31, 'semicircles', 'inclination'),
  signed('crc', 'C_rc', 16, -5, 'm', 'cosine correction of the radius'),
  signed('w', 'ω', 32, -31, 'semicircles', 'argument of perigee'),
  signed('omdot', 'Ω̇', 24, -43, 'semicircles/s', 'rate of right ascension'),
  unsigned('iode3', 'IODE', 8, 0, '', 'issue of data in subframe 3'),
  signed('idot', 'IDOT', 14, -43, 'semicircles/s', 'rate of the inclination'),
];

/** The 31 fields of an `eph` line. */
const EPH = [...CLOCK, ...EPHEMERIS];

/** The 13 fields of an `alm` line: table 20-VI. */
const ALM = [
  unsigned('data', 'data ID', 2, 0, '', 'data ID'),
  unsigned('sv', 'SV ID', 6, 0, '', 'satellite'),
  unsigned('e', 'e', 16, -21, 'dimensionless', 'eccentricity'),
  unsigned('toa', 't_oa', 8, 12, 's', 'time of applicability'),
  signed('di', 'δ_i', 16, -19, 'semicircles', 'inclination above 0.3 semicircles'),
  signed('omdot', 'Ω̇', 16, -38, 'semicircles/s', 'rate of right ascension'),
  unsigned('health', 'health', 8, 0, '', 'health; 0 is healthy'),
  unsigned('sqrta', '√A', 24, -11, '√m', 'root of the semi-major axis'),
  signed('om0', 'Ω_0', 24, -23, 'semicircles', 'longitude of the ascending node'),
  signed('w', 'ω', 24, -23, 'semicircles', 'argument of perigee'),
  signed('m0', 'M_0', 24, -23, 'semicircles', 'mean anomaly'),
  signed('af0', 'a_f0', 11, -20, 's', 'offset of the clock'),
  signed('af1', 'a_f1', 11, -38, 's/s', 'drift of the clock'),
];

/** The 18 fields of a `utc` line, the ionosphere's first: tables 20-IX and 20-X. */
const UTC = [
  unsigned('data', 'data ID', 2, 0, '', 'data ID'),
  unsigned('sv', 'SV ID', 6, 0, '', 'page'),
  signed('al0', 'α_0', 8, -30, 's', 'ionosphere: amplitude'),
  signed('al1', 'α_1', 8, -27, 's/semicircle', 'ionosphere: amplitude'),
  signed('al2', 'α_2', 8, -24, 's/semicircle²', 'ionosphere: amplitude'),
  signed('al3', 'α_3', 8, -24, 's/semicircle³', 'ionosphere: amplitude'),
  signed('be0', 'β_0', 8, 11, 's', 'ionosphere: period'),
  signed('be1', 'β_1', 8, 14, 's/semicircle', 'ionosphere: period'),
  signed('be2', 'β_2', 8, 16, 's/semicircle²', 'ionosphere: period'),
  signed('be3', 'β_3', 8, 16, 's/semicircle³', 'ionosphere: period'),
  signed('a1', 'A_1', 24, -50, 's/s', 'drift of GPS time against UTC'),
  signed('a0', 'A_0', 32, -30, 's', 'offset of GPS time against UTC'),
  unsigned('tot', 't_ot', 8, 12, 's', 'reference time of UTC'),
  unsigned('wnt', 'WN_t', 8, 0, 'weeks', 'its week, modulo 256'),
  signed('dtls', 'Δt_LS', 8, 0, 's', 'leap seconds'),
  unsigned('wnlsf', 'WN_LSF', 8, 0, 'weeks', 'week of the next leap second, modulo 256'),
  unsigned('dn', 'DN', 8, 0, 'days', 'day of the next leap second'),
  signed('dtlsf', 'Δt_LSF', 8, 0, 's', 'leap seconds after it'),
];

/** The 28 fields of an `hlt` line: the health of satellites 1 to 24, section 20.3.3.5.1.3. */
const HLT = [
  unsigned('data', 'data ID', 2, 0, '', 'data ID'),
  unsigned('sv', 'SV ID', 6, 0, '', 'page'),
  unsigned('toa', 't_oa', 8, 12, 's', 'time of applicability'),
  unsigned('wna', 'WN_a', 8, 0, 'weeks', 'week of the almanac, modulo 256'),
  ...Array.from({ length: 24 }, (_, at) =>
    unsigned(`h${at + 1}`, `health ${at + 1}`, 6, 0, '', `health of satellite ${at + 1}`)),
];

/** The fields of each kind of line that has fields. */
export const TABLES = { eph: EPH, alm: ALM, utc: UTC, hlt: HLT };

/**
 * The least integer that a field can have.
 * @param {Field} it
 */
export const least = (it) => (it.isSigned ? -(2 ** (it.bits - 1)) : 0);

/**
 * The greatest integer that a field can have.
 * @param {Field} it
 */
export const greatest = (it) => 2 ** (it.bits - (it.isSigned ? 1 : 0)) - 1;

/**
 * The value of an integer of a field, in the standard's unit. It is exact.
 * @param {Field} it
 * @param {number} integer
 */
export const valueOf = (it, integer) => integer * it.step * 2 ** it.exponent;

/**
 * The value of an integer of a field, an angle or its rate, in radians (per second).
 * @param {Field} it
 * @param {number} integer
 */
export const radiansOf = (it, integer) => valueOf(it, integer) * PI;
