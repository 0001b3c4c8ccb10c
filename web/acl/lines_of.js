// The lines of one person in a list: without them, and the same for somebody who stands in. Nothing
// here draws or asks.

import { endingOf } from './end_dates.js';
import { isInherited } from './entries.js';
import { isLineOf, readLevels, withLevel } from './levels.js';

const ofUser = (who) => ({ who, isGroup: false });

// Their own lines that give them something, and when these are to end. What denies stays.
const isGiven = (who) => (entry) => isLineOf(entry, ofUser(who))
  && (entry.type === 'A' || endingOf(entry) !== null);

export const hasLines = (list, who) => list !== null
  && list.entries.some((entry) => isGiven(who)(entry) && entry.mask !== '');

// The list without these, as it is when they are taken off by their menus; where that can't be said
// by levels these lines alone go.
export function withoutLinesOf(list, kind, who) {
  const byLevels = [false, true].reduce((next, isPass) =>
    next && withLevel(next, kind, ofUser(who), null, isPass), list);
  const given = isGiven(who);
  if (byLevels !== null && !byLevels.entries.some(given)) return byLevels;
  return { ...list, entries: list.entries.filter((entry) => !given(entry)) };
}

// The own rows of somebody that a level says.
export const levelsOf = (list, kind, who) => readLevels(list, kind).rows.filter((row) =>
  row.who === who && !row.isGroup && !row.inherited && row.level !== 'custom');

// The list in which another one has until a day what somebody has there by lines: {next, has}.
// 'until' is {day, asker}. 'has' says that the other one has lines there already, which stay;
// 'next' is null then, and where levels can't say it.
export function withStandIn(list, kind, who, other, until) {
  const has = list.entries.some((entry) => isLineOf(entry, ofUser(other)) && entry.mask !== '');
  if (has) return { next: null, has };
  const next = levelsOf(list, kind, who).reduce((made, { level }) =>
    made && withLevel(made, kind, ofUser(other), level, level === 'pass', until), list);
  return { next: next === list ? null : next, has };
}

// What somebody has there by lines of their own, and may not be said by a level.
export const ownEntriesOf = (list, who) =>
  list.entries.filter((entry) => !isInherited(entry) && isGiven(who)(entry));
