// Accesses with an end date. The date is an entry of the list itself that grants nothing to
// anybody, since its mask is empty: A:g:until.2027-05-31.read.u.eve@alice: beside the entries of
// eve's level. The nightly run takes these away when the day is over, as whoever asked.

import { texts } from '../language/language.js';
import { isInherited, isName } from './entries.js';
import { LEVEL_FORMS } from '../tables/level_forms.js';

const LEVELS = Object.keys(LEVEL_FORMS.folder).join('|');
const NAME = new RegExp(
  `^(until|ended)\\.(\\d{4}-\\d\\d-\\d\\d)\\.(${LEVELS})\\.([ug])\\.([^@]+)@([^@]+)$`,
);

const hexOf = (sign) => sign.codePointAt(0).toString(16).toUpperCase().padStart(2, '0');
// A second @ can't stand before the one that is there, and behind it only letters, digits, dots and
// dashes can.
const inName = (who) => who.replace(/[+@]/g, (sign) => `+${hexOf(sign)}`);
const inDomain = (asker) => asker.replace(/[^A-Za-z0-9.]/g, (sign) => `-${hexOf(sign)}`);
const signOf = (_, hex) => String.fromCodePoint(parseInt(hex, 16));

// The entry that says until when {day, level, who, isGroup} counts, which this user asks for, or
// null where a name is too long for that.
export function endEntry({ day, level, who, isGroup, asker, over = false }) {
  const name = `${over ? 'ended' : 'until'}.${day}.${level}.${isGroup ? 'g' : 'u'}.${inName(who)}@${
    inDomain(asker)}`;
  return isName(name) ? { type: 'A', flags: 'g', who: name, mask: '' } : null;
}

// A year 0 is none for the nightly run.
const isDay = (day) => {
  const time = Date.parse(`${day}T00:00:00Z`);
  return !Number.isNaN(time) && day >= '0001' && new Date(time).toISOString().startsWith(day);
};

// What an own entry says of an end: {day, level, who, isGroup, asker, over}, or null. What is
// written in exactly one way is taken, and nothing else.
export function endingOf(entry) {
  const parts = NAME.exec(entry.who);
  if (parts === null || isInherited(entry) || !isDay(parts[2])) return null;
  const [, word, day, level, kind, who, asker] = parts;
  const end = {
    day, level, isGroup: kind === 'g', over: word === 'ended',
    who: who.replace(/\+(2B|40)/g, signOf), asker: asker.replace(/-([0-9A-F]{2})/g, signOf),
  };
  const same = endEntry(end);
  const isSame = same !== null && same.who === entry.who && entry.type === 'A'
    && entry.flags === 'g' && entry.mask === '';
  return isSame && isName(end.who) && isName(end.asker) ? end : null;
}

export const endWords = (day) => texts.lists.day(new Date(`${day}T00:00:00Z`), 'UTC');
