// When something changed, and how large it is, in the words of an office.

import { texts } from '../language/language.js';

const DAY = 24 * 3600 * 1000;
const midnight = (time) => new Date(time).setHours(0, 0, 0, 0);
// Days of the reader's calendar: one with a change of the clock has 23 or 25 hours.
const daysSince = (time, now) => Math.round((midnight(now) - midnight(time)) / DAY);

// 'Today 14:32', of seconds since 1970.
export function momentWords(seconds, now = new Date()) {
  const time = new Date(seconds * 1000);
  const days = daysSince(time, now);
  if (days === 0) return texts.moments.today(time);
  if (days === 1) return texts.moments.yesterday(time);
  return time.getFullYear() === now.getFullYear() ? texts.moments.thisYear(time)
    : texts.moments.earlier(time);
}

export const exactWords = (seconds) => texts.moments.exact(new Date(seconds * 1000));

/** @type {[(many: number) => string, number][]} */
const UNITS = [[texts.moments.megabytes, 1000 * 1000], [texts.moments.kilobytes, 1000]];

// As file managers say it: two digits that count.
export function sizeWords(bytes) {
  for (const [words, size] of UNITS) {
    if (bytes >= size * 0.9995) {
      const count = bytes / size;
      return words(count < 9.95 ? Math.round(count * 10) / 10 : Math.round(count));
    }
  }
  return texts.moments.bytes(bytes);
}
