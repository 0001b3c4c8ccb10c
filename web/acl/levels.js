// What the entries of a dacl say in the levels of an office, and back. Nothing here draws or asks.
//
// A list is simple if each of its own and inherited entries allows, except the line that keeps
// things in place, and if nobody whom an own entry lets remove stands below that line. In such a
// list the order counts for nothing else that can be changed here: each right except D and d is had
// by whoever any entry gives it to. So the entries of one person or group can be exchanged without
// touching what the others may do.

import { endEntry, endingOf } from './end_dates.js';
import { isGroup, isInherited, orderMask, printEntry, readEntry } from './entries.js';
import { LEVEL_FORMS } from '../tables/level_forms.js';

// Only those remove who stand above it.
export const KEEP = 'D:d:EVERYONE@:Dd';
// Whoever adds a document may also remove and rename it.
export const OWN = 'A:fi:OWNER@:d';

// The levels, from the least to the most, and where a menu has them.
export const LEVELS = {
  pass: [], clear: [], drop: [], see: [], read: ['folder', 'document'], add: [],
  change: ['folder', 'document'], remove: ['folder'], manage: ['folder', 'document'],
};
export const RANKS = Object.keys(LEVELS);

// No request asks for the idle letters, so they make no difference between levels.
const asked = (mask) => [...mask].filter((one) => !LEVEL_FORMS.idle.includes(one)).join('');
// What comes from above may say the same twice.
const formOf = (pairs) => [...new Set(pairs.map(([flags, mask]) => `${flags}:${asked(mask)}`))]
  .sort().join(' ');

const KNOWN = Object.fromEntries(['folder', 'document'].map((kind) => [kind, new Map(
  Object.entries(LEVEL_FORMS[kind]).flatMap(([level, ways]) => ways.map(
    (pairs) => [formOf(pairs), level])),
)]));

const without = (entry, letters) => (
  { ...entry, flags: [...entry.flags].filter((flag) => !letters.includes(flag)).join('') });
const isLine = (entry, text) => printEntry(without(entry, 'I')) === text;
export const isKeep = (entry) => isLine(entry, KEEP);
export const isOwn = (entry, kind) =>
  isLine(entry, OWN) || (kind === 'document' && isLine(entry, 'A::OWNER@:d'));
export const keyOf = (entry) => `${isGroup(entry) ? 'g' : 'u'} ${entry.who}`;
const isRemoving = ({ type, mask }) => type === 'A' && /[Dd]/.test(mask);
const removing = (mask) => [...mask].filter((letter) => 'Dd'.includes(letter)).join('');

// Whether one entry gives the same one all of these letters that another gives, here and below.
const gives = (one, entry, letters) => one.type === 'A' && keyOf(one) === keyOf(entry)
  && !/[ni]/.test(one.flags) && [...letters].every((letter) => one.mask.includes(letter))
  && [...'fd'].every((flag) => !entry.flags.includes(flag) || one.flags.includes(flag));

function levelOf(entries, kind) {
  if (entries.some(({ type }) => type !== 'A')) return 'custom';
  // What was carried above the line says again a part of what another one says.
  const isCarried = (entry) => removing(entry.mask) === entry.mask
    && without(entry, 'gI').flags === (kind === 'folder' ? 'fd' : '')
    && entries.some((one) => one.mask !== entry.mask && gives(one, entry, entry.mask));
  const pairs = entries.filter((entry) => !isCarried(entry))
    .map((entry) => [without(entry, 'gI').flags, entry.mask]);
  return KNOWN[kind].get(formOf(pairs)) ?? 'custom';
}

// Lets somebody put something into this folder or into one below, and doesn't say that they remove.
const fills = ({ type, flags, mask }) => type === 'A' && mask.includes('w') && !mask.includes('D')
  && (!flags.includes('i') || flags.includes('d'));

// The entries that would let somebody remove, and stand below the line that keeps things. Whoever
// stands below it may be above it as well, with what the line would take.
function barredIn(entries, kind) {
  const at = entries.findIndex(isKeep);
  const above = entries.slice(0, Math.max(0, at));
  return at < 0 ? [] : entries.slice(at).filter((entry) => isRemoving(entry) && !isOwn(entry, kind)
    && !above.some((one) => gives(one, entry, removing(entry.mask))));
}

// Whether it may be edited by levels: null, or why not: 'denies', 'apart', 'open' or 'order'.
export function whyNot(list, kind) {
  const { entries } = list;
  if (entries.some((entry) => entry.type !== 'A' && !isKeep(entry))) return 'denies';
  if (kind === 'folder' && !list.auto) return 'apart';
  const heads = (those) => those.filter((entry) => isRemoving(entry) && !isOwn(entry, kind));
  // What is passed on in part can't be carried above the line as it is.
  if (heads(entries).some(({ flags }) => /[ni]/.test(flags))) return 'order';
  // Without the line, whoever may add may remove as well.
  if (!entries.some(isKeep)) return kind === 'folder' && entries.some(fills) ? 'open' : null;
  return barredIn(entries, kind).every(isInherited) ? null : 'order';
}

// An entry that only lets somebody pass is a line of its own: what is named to them further down
// needs it, whatever else they have or had here.
const isWay = (entry, kind) => kind === 'folder' && levelOf([entry], kind) === 'pass';

// The ends in a list: [{day, level, who, isGroup, asker, over, entry}].
const endsOf = ({ entries }) => entries.map((entry) => ({ entry, end: endingOf(entry) }))
  .filter(({ end }) => end !== null).map(({ entry, end }) => ({ ...end, entry }));

// Whether an end is that of this one's level, or of the line that only lets them pass.
const isEndOf = ({ who, isGroup: group, isPass }) => (end) => !end.over && end.who === who
  && end.isGroup === group && (end.level === 'pass') === isPass;

// Whether an own entry is one of this person's or group's, or the end date of one.
export const isLineOf = (entry, { who, isGroup: group }) => !isInherited(entry)
  && (keyOf(entry) === keyOf({ who, flags: group ? 'g' : '' })
    || [endingOf(entry)].some((end) => end?.who === who && end.isGroup === group));

// {rows: [{key, who, isGroup, level, entries, inherited, until, ends, barred}], keep, own, ended,
// loose, why}. The rows are in the order of the list; one person or group may have an own one and
// an inherited one. 'until' is a day or null, and 'ends' says whether the nightly run can take the
// access away after it. 'barred' says that what the level lets them remove is kept in place here.
// 'ended' are the accesses that were taken back, and 'loose' are the days whose access is gone.
export function readLevels(list, kind) {
  const rows = new Map();
  const ends = endsOf(list);
  for (const entry of list.entries) {
    if (isKeep(entry) || isOwn(entry, kind) || ends.some((end) => end.entry === entry)) continue;
    const inherited = isInherited(entry);
    const key = `${keyOf(entry)}${inherited ? ' I' : ''}${isWay(entry, kind) ? ' x' : ''}`;
    const row = rows.get(key) ?? {
      key: keyOf(entry), who: entry.who, isGroup: isGroup(entry), inherited, entries: [],
    };
    row.entries.push(entry);
    rows.set(key, row);
  }
  // Of several the first day on which the nightly run takes the access away.
  const withEnd = (row) => {
    const theirs = row.inherited ? []
      : ends.filter(isEndOf({ ...row, isPass: row.level === 'pass' }));
    const kept = theirs.filter(({ level }) => level === row.level)
      .sort((one, other) => (one.day < other.day ? -1 : 1));
    return { ...row, until: (kept[0] ?? theirs[0])?.day ?? null, ends: kept.length > 0 };
  };
  const barred = barredIn(list.entries, kind);
  const leveled = [...rows.values()].map((row) => withEnd({ ...row,
    level: levelOf(row.entries, kind), barred: row.entries.some((one) => barred.includes(one)) }));
  const isTaken = (end) => leveled.some((row) => !row.inherited
    && isEndOf({ ...row, isPass: row.level === 'pass' })(end));
  return {
    rows: leveled, ended: ends.filter(({ over }) => over),
    loose: ends.filter((end) => !end.over && !isTaken(end)),
    keep: list.entries.some(isKeep),
    own: list.entries.some((entry) => isOwn(entry, kind)),
    why: whyNot(list, kind),
  };
}

// The letters that a level may have, of those that requests ask for.
export const lettersIn = (level) => (level === 'none' ? ''
  : asked(LEVEL_FORMS.folder[level].flat().map(([, mask]) => mask).join('')));

// The entries that a level is.
export const entriesOf = (level, who, group, kind) => LEVEL_FORMS[kind][level][0].map(
  ([flags, mask]) => (
    { type: 'A', flags: `${flags}${group ? 'g' : ''}`, who, mask: orderMask(mask) }));

const isHead = (level) => level === 'manage' || level === 'remove';
// Who may put something in, and may not remove by that.
const isTail = (level) => ['drop', 'add', 'change'].includes(level);
const lineOf = (text) => readEntry(text).entry;

const ownOf = (entries) => entries.filter((entry) => !isInherited(entry));

// The lines above the line that keeps things, for those who may remove by the folder above. They
// say no more than that, so whoever loses all else there keeps nothing else here.
const carriedFor = (entries) => entries.filter((entry) => isInherited(entry) && isRemoving(entry)
  && !isOwn(entry, 'folder'))
  .map((entry) => ({ ...without(entry, 'I'), mask: removing(entry.mask) }));

// The line is there, directly before the first one who adds, and those whom it would take something
// from stand above it.
function kept(entries) {
  if (entries.some(isKeep)) return entries;
  const own = ownOf(entries);
  const isHeadOf = (entry) => isRemoving(entry) && !isOwn(entry, 'folder');
  const carried = carriedFor(entries)
    .filter((entry) => !own.some((one) => gives(one, entry, entry.mask)));
  const rest = own.filter((entry) => !isHeadOf(entry));
  let at = rest.findIndex(fills);
  const isSame = (one, other) => keyOf(one) === keyOf(other) && !isWay(one, 'folder');
  while (at > 0 && isSame(rest[at - 1], rest[at])) at -= 1;
  if (at < 0) at = rest.length;
  return [...carried, ...own.filter(isHeadOf), ...rest.slice(0, at), lineOf(KEEP),
    ...rest.slice(at), ...entries.filter(isInherited)];
}

// The list in which these rows from above, which are barred, may remove here too.
export function letRemove(list, rows) {
  const carried = carriedFor(rows.filter(({ barred, inherited }) => barred && inherited)
    .flatMap((row) => row.entries));
  const own = ownOf(list.entries);
  own.splice(Math.max(0, own.findIndex(isKeep)), 0, ...carried);
  return { ...list, entries: [...own, ...list.entries.filter(isInherited)] };
}

// An open list in which only those remove who are said to.
export const closedUp = (list) => ({ ...list, entries: kept(list.entries) });

// Where the new entries of a level stand among these: those who remove directly above the line, and
// all others before OWN, or at the end of the own ones. A line that was there before anybody who
// adds stays where it is: so it is seen that it wasn't written for them.
function placeFor(level, entries, kind) {
  const own = ownOf(entries);
  const keep = own.findIndex(isKeep);
  if (isHead(level)) {
    const heads = own.findLastIndex((entry) => isRemoving(entry) && !isOwn(entry, kind)) + 1;
    return keep >= 0 ? keep : heads;
  }
  if (isTail(level) && keep >= 0 && keep === own.length - 1) return keep;
  const last = own.findIndex((entry) => isOwn(entry, kind));
  const isFirst = isTail(level) && !own.slice(0, Math.max(0, last)).some(fills);
  return last >= 0 && !isFirst ? last : own.length;
}

// Those who add need the line, and the first who add and change get OWN with it, unless a line here
// says something that the levels can't.
function withLines(list, now, level) {
  const all = kept(list.entries);
  const isFirst = !now.own && !now.rows.some((row) => isTail(row.level) || row.level === 'custom');
  if (level === 'change' && isFirst) all.splice(ownOf(all).length, 0, lineOf(OWN));
  return { ...list, entries: all };
}

// Without the lines that withLines wrote for the last one who adds, once that row has another
// level, or none: as it was before.
function withoutLines(entries, before, { entries: [first] }, level, kind) {
  const rows = readLevels({ auto: true, protect: false, entries }, kind).rows;
  const place = (list, holds) => ownOf(list).findIndex(holds);
  const at = ownOf(before).indexOf(first);
  const [keep, own] = [isKeep, (entry) => isOwn(entry, kind)].map((one) => place(before, one));
  const isAlone = !rows.some(({ level }) => isTail(level) || level === 'custom');
  // Without the line that keeps things, whoever is barred by it would remove.
  const isFree = barredIn(entries, kind).length === 0;
  const drops = [];
  if (isAlone && own > at && (isFree || level === null)) {
    drops.push((entry) => isOwn(entry, kind) && !isInherited(entry));
  }
  const behind = ownOf(entries).slice(place(entries, isKeep) + 1);
  const isLast = behind.every((entry) => isOwn(entry, kind)) && (own < keep || own > at);
  if (keep >= 0 && keep < at && isLast && isFree && !entries.some(fills)) {
    const carried = carriedFor(entries).map(printEntry);
    drops.push((entry) => !isInherited(entry)
      && (isKeep(entry) || carried.includes(printEntry(entry))));
  }
  return entries.filter((entry) => !drops.some((drop) => drop(entry)));
}

function changed(list, kind, { who, isGroup: group }, level, isPass, until) {
  const now = readLevels(list, kind);
  const key = keyOf({ who, flags: group ? 'g' : '' });
  const row = now.rows.find((one) => one.key === key && !one.inherited
    && (one.level === 'pass') === isPass);
  if (now.why !== null || row?.level === 'custom') return null;
  const ends = endsOf(list).filter(isEndOf({ who, isGroup: group, isPass }));
  const others = list.entries.filter((entry) => !row?.entries.includes(entry)
    && !ends.some((end) => end.entry === entry));
  const wasLast = kind === 'folder' && row && isTail(row.level) && !(level && isTail(level));
  const entries = wasLast ? withoutLines(others, list.entries, row, level, kind) : others;
  if (level === null) return { ...list, entries };
  const end = until && endEntry({ ...until, level, who, isGroup: group });
  if (until && end === null) return null;
  entries.splice(placeFor(level, entries, kind), 0, ...entriesOf(level, who, group, kind),
    ...(end ? [end] : []));
  const next = { ...list, entries };
  return kind === 'document' || !isTail(level) ? next : withLines(next, now, level);
}

// The list in which a person or a group {who, isGroup} has this level, or none for null. 'isPass'
// says that the line is meant that only lets them pass, and 'until' is {day, asker} or null. Nobody
// else's entries are touched. Null where it can't be said by levels, as of somebody who has more
// from above than here.
export function withLevel(list, kind, subject, level, isPass = level === 'pass', until = null) {
  const next = changed(list, kind, subject, level, isPass, until);
  return next === null || whyNot(next, kind) !== null ? null : next;
}

// The list in which only those count who are shown: it is cut off from the folder above, and what
// came from there becomes its own. Nothing changes by that alone.
export const cutOff = (list) => ({ ...list, protect: true, entries: [...ownOf(list.entries),
  ...list.entries.filter(isInherited).map((entry) => without(entry, 'I'))] });

// The list that follows the folder above again, from which 'coming' then comes. What cutOff copied
// isn't kept, so that it is undone by this. Where somebody changed something since, a line that
// comes from there anyway isn't kept either, unless others would then stand in its way.
export function joined(list, coming, kind) {
  const own = ownOf(list.entries);
  const lines = coming.map((entry) => printEntry(without(entry, 'I')));
  const isCopy = (entry) => lines.includes(printEntry(entry));
  const before = own.slice(0, Math.max(0, own.length - lines.length));
  const isUndone = own.slice(before.length).map(printEntry).join() === lines.join();
  const fits = (entries) => whyNot({ ...list, entries: [...entries, ...coming] }, kind) === null;
  // Whoever removes by an own line, and is barred by what comes from above, keeps it.
  const isFree = (entries) => barredIn([...entries, ...coming], kind).length === 0;
  const [fewest, more] = [own.filter((entry) => !isCopy(entry)),
    own.filter((entry) => !isCopy(entry) || isRemoving(entry))];
  const others = fits(fewest) && isFree(fewest) ? fewest : [more].find(fits) ?? own;
  const entries = isUndone ? before : others;
  return { ...list, protect: false, entries };
}
