// Weeks and times of week as dates of GPS time, which has no leap seconds.
//
// A week's number in the message is modulo 1024, so that a date needs the number of times that it
// began anew at 0: its rollovers, the first of which was in August 1999.

const EPOCH = Date.UTC(1980, 0, 6);
const SECOND = 1000, WEEK = 604800 * SECOND;
/** What a week's number in subframe 1 is modulo. */
export const WEEKS = 1024;
/** Seconds of a day of GPS time, which has no leap seconds. */
export const SECONDS_A_DAY = 86400;

/**
 * The most rollovers by which the week of a number (modulo 1024) isn't after today's.
 * @param {number} week
 * @param {Date} today
 */
export function rolloversBy(week, today) {
  const thisWeek = Math.floor((today.getTime() - EPOCH) / WEEK);
  return Math.max(0, Math.floor((thisWeek - week) / WEEKS));
}

/**
 * The date of so many seconds after the beginning of the week of a number modulo 1024, as text of
 * GPS time: `2020-08-07 02:40:00`.
 * @param {number} week
 * @param {number} rollovers
 * @param {number} seconds
 */
export function dateOf(week, rollovers, seconds) {
  const at = new Date(EPOCH + (week + WEEKS * rollovers) * WEEK + seconds * SECOND);
  if (Number.isNaN(at.getTime())) return 'beyond the last date';
  return at.toISOString().slice(0, 19).replace('T', ' ');
}

/**
 * The week nearest to a full one, of a number that is modulo 256, as almanacs and UTC have it.
 * @param {number} number modulo 256
 * @param {number} full a week since 1980
 */
export function weekNear(number, full) {
  return number + 256 * Math.round((full - number) / 256);
}
