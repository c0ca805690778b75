import { test } from 'node:test';
import assert from 'node:assert/strict';

import { TABLES, greatest, least } from '../fields.js';
import { datesOf, integerOf, numberText, rowsOf, weekText } from '../pages.js';
import { dateOf, rolloversBy, weekNear } from '../dates.js';
import { expected, python } from './companion.js';
import { parse } from '../lines.js';

/** The page of a kind of the bundled message. */
function ephemeris() {
  const text = expected('real_message').split('\n').find((it) => it.includes(' eph ')) ?? '';
  const line = parse(text);
  assert.ok(line.kind === 'eph');
  return line;
}

test('the fields, their sizes, scales and units are those of the companion', () => {
  const tables = python('import json\nfrom seldomplough import fields\n'
    + 'print(json.dumps({name: [[it.name, it.bits, it.is_signed, it.exponent, it.unit or "",\n'
    + '    it.step, it.least, it.greatest] for it in getattr(fields, name.upper())]\n'
    + '    for name in ("eph", "alm", "utc", "hlt")}))', '');
  for (const [kind, table] of Object.entries(TABLES)) {
    assert.deepEqual(table.map((it) => [it.name, it.bits, it.isSigned, it.exponent,
      it.unit.replace('√', 'sqrt_').replace('/', '_per_').replace('²', '2').replace('³', '3'),
      it.step, least(it), greatest(it)]), tables[kind]);
  }
});

test('the ephemeris of the bundled message has the values that RTKLIB writes', () => {
  // The RINEX file of docs/RECIPES.md, which RTKLIB's convbin wrote of the same subframes.
  const rinex = { af0: -0.262667890638e-3, af1: -0.111413100967e-10, crs: -0.8215625e2,
    dn: 0.444161358246e-8, m0: 0.104152998614e1, cuc: -0.447779893875e-5, e: 0.313025130890e-2,
    cus: 0.579655170441e-5, sqrta: 0.515377473450e4, toe: 446400, cic: -0.931322574615e-8,
    om0: 0.286074149590e1, i0: 0.966707096762, crc: 269.84375, w: 0.818339767959,
    omdot: -0.818426947910e-8, idot: -0.203222750758e-9, tgd: 0.186264514923e-8, iodc: 94 };
  const rows = new Map(rowsOf(ephemeris()).map((it) => [it.name, it]));
  for (const [name, value] of Object.entries(rinex)) {
    const number = rows.get(name)?.number ?? NaN;
    assert.ok(Math.abs(number / value - 1) < 1e-11, `${name} ${number} ${value}`);
  }
  assert.equal(rows.get('m0')?.unit, 'rad');
  assert.equal(rows.get('dn')?.unit, 'rad/s');
  assert.equal(rows.get('sqrta')?.unit, '√m');
  assert.equal(rows.get('sqrta')?.integer, '2702062248 × 2⁻¹⁹');
  assert.equal(integerOf(ephemeris(), 'wn'), 69);
});

test('a number is shown by its shortest text, with a true minus', () => {
  assert.equal(numberText(-0.25), '\u22120.25');
  assert.equal(numberText(-0.00025), '\u22122.5 × 10⁻⁴');
  assert.equal(numberText(-1.5e-19), '\u22121.5 × 10⁻¹⁹');
  assert.equal(numberText(0), '0');
  assert.equal(numberText(2 ** 70), '1.1805916207174113 × 10²¹');
});

test('weeks are dates by the reader\'s calendar, as the companion has them', () => {
  const cases = [];
  for (const week of [0, 1, 69, 512, 1023]) {
    for (const today of ['1980-01-06', '1999-08-22', '2019-04-06', '2019-04-07', '2026-11-27']) {
      cases.push({ week, today });
    }
  }
  const rows = python('import json, sys\nfrom datetime import datetime\n'
    + 'from seldomplough.dates import date, rollovers_by\n'
    + 'def row(it):\n'
    + '    times = rollovers_by(it["week"], datetime.fromisoformat(it["today"]))\n'
    + '    return [times, date(it["week"], times, 446400).isoformat(" ")]\n'
    + 'print(json.dumps([row(it) for it in json.load(sys.stdin)]))', JSON.stringify(cases));
  cases.forEach(({ week, today }, at) => {
    const rollovers = rolloversBy(week, new Date(`${today}T00:00:00Z`));
    assert.deepEqual([rollovers, dateOf(week, rollovers, 446400)], rows[at]);
  });
});

test('the dates of an ephemeris follow the rollovers that are chosen', () => {
  // RTKLIB has 2020 08 07 04 00 00 for this t_oc, with two rollovers.
  const dates = (/** @type {number} */ it) => datesOf(ephemeris(), it, null)[1];
  assert.deepEqual(dates(2), { about: 't_oc', date: '2020-08-07 04:00:00' });
  assert.deepEqual(dates(1), { about: 't_oc', date: '2000-12-22 04:00:00' });
  const today = new Date('2026-11-27T00:00:00Z');
  assert.match(weekText(69, null, today), /with 2 rollovers, .* 2026-11-27, it is week 2117\.$/);
  assert.match(weekText(69, 1, today), /with 1 rollovers, as chosen, it is week 1093\.$/);
});

test('a leap second that is announced has its date', () => {
  // The week 1929 had the leap second at the end of its seventh day, 31 December 2016. By GPS time
  // that was 17 s into the first of January.
  const fields = TABLES.utc.map((it) => ({ wnt: 1920 % 256, wnlsf: 1929 % 256, dn: 7, dtls: 17,
    dtlsf: 18, tot: 0 }[it.name] ?? 0));
  const line = { kind: /** @type {const} */ ('utc'), client: 1, time: 0, slot: 0, values: fields };
  assert.deepEqual(datesOf(line, 1, 1920), [{ about: 't_ot', date: '2016-10-23 00:00:00' },
    { about: 'leap second', date: '2017-01-01 00:00:00' }]);
  fields[TABLES.utc.findIndex((it) => it.name === 'dtls')] = 18;
  assert.deepEqual(datesOf(line, 1, 1980).map((it) => it.about), ['t_ot']);
});

test('a week modulo 256 is the nearest one', () => {
  assert.deepEqual([weekNear(69, 2117), weekNear(68, 2117), weekNear(255, 2304), weekNear(1, 2303)],
    [2117, 2116, 2303, 2305]);
});
