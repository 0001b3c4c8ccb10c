// The way to an object: the folders above it, which have to let somebody pass, and the lines there
// that do nothing else.

import * as api from '../net/api.js';
import { alone, imaginedIn, keptAlone, objectsAlone } from '../acl/question.js';
import { changesAt } from './who_can.js';
import { entriesOf, isLineOf, keyOf, readLevels } from '../acl/levels.js';
import { isInherited, printEntry, printList } from '../acl/entries.js';
import { foresee } from '../net/would.js';
import { isOld } from '../net/directory.js';
import { wayObjects, withImagined } from '../net/pieces.js';
import { isMeant, isMeantBy, subjectsOf } from './subjects.js';
import { ownText, seeList, setIfSame } from '../net/matched_list.js';
import { isUnanswered } from '../net/retry.js';

// The objects of a question about what is shown: the way, the object, and what was seen further
// down, which may begin above it. What is in folders has rows for these 'asked' paths too.
export function objectsRound({ path, kind, text, object, folders }, nodes, asked = []) {
  const way = wayObjects(folders);
  const known = new Set([path, ...way.map((one) => one.path)]);
  const depth = (one) => one.path.split('/').length;
  const rest = nodes.filter((one) => !known.has(one.path))
    .sort((one, other) => depth(one) - depth(other));
  return withImagined([...way, { path, kind, text, object }, ...rest],
    kind === 'folder' ? [path, ...asked] : []);
}

// Those who have to be let pass: whoever gains something here, and whom this is about. Everyone at
// once is no caller who could be.
function comingTo(gains, callers, subject) {
  const gaining = gains.filter(({ user, groups }) => user !== null || groups.length > 0);
  if (subject?.isLeaving) return gaining;
  const ids = new Set(gaining.map(({ id }) => id));
  const meant = callers.filter((one) => !one.isPerhaps && isMeant(subject)(one));
  return [...gaining, ...meant.filter(({ id }) => !ids.has(id))];
}

// Asked once for each panel, which may be drawn several times.
export function mayChange({ changeable }, path) {
  if (!changeable.has(path)) {
    changeable.set(path, api.can(path, 'C').then((may) => may.C.ruling === 'allowed', () => false));
  }
  return changeable.get(path);
}

// The list with a line that lets somebody pass, at the end of its own ones.
function opened(list, { who, isGroup }) {
  const own = list.entries.filter((entry) => !isInherited(entry));
  return { ...list, entries: [...own, ...entriesOf('pass', who, isGroup, 'folder'),
    ...list.entries.filter(isInherited)] };
}

// The same for those whom it bars, or where it bars others who come by them, for all.
function openedFor(list, callers, subject) {
  const those = subjectsOf(subject);
  const barred = those.filter((one) => callers.some(isMeantBy(one)));
  return (barred.length > 0 ? barred : those).reduce(opened, list);
}

// Whoever gains something by the list alone, and whom each folder on the way doesn't let pass: one
// question about all these lists by themselves. Returns {gaining, opening}, of which 'opening' has
// the folders that bar somebody, from the top down: [{path, callers, next, before, folder}]. 'next'
// is null where I may not change the list, or where that won't do.
export async function wayOf(state, after, subject) {
  const { folders, kind, list, object, known, me } = state;
  const read = folders.filter((one) => one.list !== null);
  const isOffered = subject !== null && subject.isLeaving !== true;
  const named = read.flatMap((folder, at) => [
    { name: `b${at}`, kind: 'folder', list: folder.list, object: folder.object },
    ...isOffered ? [{ name: `o${at}`, kind: 'folder', object: folder.object,
      list: openedFor(folder.list, [], subject) }] : []]);
  const objects = objectsAlone([...named, { name: 't', kind, list, object }]);
  const top = objects.at(-1);
  const said = await foresee({ known, me,
    objects: kind === 'folder' ? [...objects, ...imaginedIn(top)] : objects,
    changes: [{ set: top.path, text: keptAlone(after) }] });
  const gaining = comingTo(changesAt(said, top).filter(({ more }) => more), said.callers, subject);
  const passes = (name) => (caller) =>
    said.at(alone(name), caller)?.mask.includes('x') === true;
  const barred = read.map((folder, at) => ({ folder, at,
    callers: gaining.filter((caller) => !passes(`b${at}`)(caller)) }))
    .filter(({ callers }) => callers.length > 0);
  const opening = await Promise.all(barred.map(async ({ folder, at, callers }) => {
    const { path } = folder;
    const may = isOffered && await mayChange(state, path);
    const lets = may && callers.every(passes(`o${at}`));
    return { path, callers, folder, before: folder.text,
      next: lets ? openedFor(folder.list, callers, subject) : null };
  }));
  return { gaining, opening };
}

function withoutLine(list, subject) {
  const key = keyOf({ who: subject.who, flags: subject.isGroup ? 'g' : '' });
  const row = readLevels(list, 'folder').rows.find((one) => one.key === key && !one.inherited
    && one.level === 'pass');
  return row && { ...list, entries: list.entries.filter((entry) => !row.entries.includes(entry)) };
}

// Whether a caller can do something further down that goes without the line: more than to pass.
function isNeeded([base, without], caller, nodes) {
  const of = (said, { path, kind }) => said.extentAt(path, kind, caller)?.all ?? [];
  const beyond = ({ mask, removes }, kind) =>
    `${kind === 'folder' ? mask.replace(/[xt]/g, '') : mask} ${removes}`;
  return nodes.some((node) => of(base, node).some((row, at) =>
    beyond(row, node.kind) !== beyond(of(without, node)[at] ?? row, node.kind)));
}

// Whether it is known who is in the groups by which somebody may need the line: those that don't
// pass by themselves. Where members are known, groups alone aren't asked about.
const areGroupsKnown = ({ known }, said, path) => (said.asked.isExact ? !isOld(known.made)
  : said.callers.filter(({ user, groups }) => user === null && groups.length === 1)
    .every((caller) => said.at(path, caller)?.mask.includes('x')));

async function leftoverAt(folder, state, next, subject) {
  const without = folder.list && withoutLine(folder.list, subject);
  if (!without || !(await mayChange(state, folder.path))) return null;
  const { nodes, unread, all } = state.looking.below(folder.path);
  const sets = [{ set: state.path, text: printList(next) }];
  const ask = (changes) => foresee({ changes, known: state.known, me: state.me,
    objects: objectsRound(state, nodes) });
  const both = await Promise.all([ask(sets),
    ask([...sets, { set: folder.path, text: printList(without) }])]);
  const meant = both[1].callers.filter(isMeantBy(subject));
  const isRedundant = meant.length > 0 && meant.every((caller) =>
    both[1].at(folder.path, caller)?.mask.includes('x'));
  const places = [...nodes, { path: state.path, kind: state.kind }];
  const needing = isRedundant ? [] : meant.filter((caller) => isNeeded(both, caller, places));
  // For those who need it only if they are in a group it is offered, and not ticked.
  if (needing.some(({ isPerhaps }) => !isPerhaps)) return null;
  const isSeen = all && unread.length === 0 && needing.length === 0
    && areGroupsKnown(state, both[1], folder.path);
  return { path: folder.path, before: folder.text, next: without, sure: isRedundant || isSeen };
}

// The lines on the way to an object that only let somebody pass, and that nobody needs any more
// once its list is this one: [{path, before, next, sure}]. 'sure' is false where not everything
// below could be looked at, or it isn't known who is in a group. What lets everyone pass stays.
export async function leftovers(state, next, subject) {
  if (subject.who.endsWith('@')) return [];
  const found = await Promise.all(state.folders.map((folder) =>
    leftoverAt(folder, state, next, subject)));
  return found.filter((one) => one !== null);
}

// More places than these aren't offered, since each takes a request.
const MOST_PLACES = 50;

// The lines of one who is taken off a list that stand further down, from below: [{path, before,
// next, isSame}]. 'isSame' says that they say nothing but what is taken away with 'next'. 'places'
// have their lists as they are then.
export async function furtherLines(state, next, places, subject) {
  const sent = next.entries.map(printEntry);
  const gone = state.list.entries.filter((entry) => !sent.includes(printEntry(entry)));
  const isGone = (entry) => gone.some((one) => one.type === entry.type && one.flags === entry.flags
    && one.who === entry.who && [...entry.mask].every((letter) => one.mask.includes(letter)));
  const found = places.flatMap(({ path, list }) => {
    const lines = list.entries.filter((entry) => isLineOf(entry, subject));
    const without = { ...list, entries: list.entries.filter((entry) => !lines.includes(entry)) };
    return lines.length === 0 ? []
      : [{ path, before: printList(list), next: without, isSame: lines.every(isGone) }];
  }).slice(0, MOST_PLACES);
  const may = await Promise.all(found.map(({ path }) => mayChange(state, path)));
  return found.filter((_, index) => may[index]).reverse();
}

// A list as it is seen, null where it can't be read, and undefined where the room doesn't answer.
const seenAt = (path) => seeList('dacl', path)
  .catch((fault) => (isUnanswered(fault) ? undefined : null));
const textAt = async (path) => (await seenAt(path))?.text;

// Takes back what was sent, unless somebody changed it since. Returns the paths where it stays. A
// room that doesn't answer was waited for long enough.
async function takeBack(sent, isAway) {
  const left = [];
  let away = isAway;
  for (const { path, before, after } of [...sent].reverse()) {
    const now = away ? undefined : await seenAt(path);
    away = now === undefined;
    const isDone = typeof after === 'string' && now?.text === after
      && await setIfSame('dacl', path, before, now).catch(() => false);
    if (!isDone) left.push(path);
  }
  return left;
}

// Where a list wasn't sent by what is known: whether it was all the same, as when its answer was
// lost. Otherwise what was sent before it is taken back, and the fault has what is 'left' of it.
async function afterFault({ path, next }, fault, sent) {
  const isOpen = isUnanswered(fault) || fault.status === 500;
  const now = isOpen ? await seenAt(path) : null;
  if (now && ownText(now.text) === ownText(printList(next))) return;
  throw Object.assign(fault, { left: await takeBack(sent, now === undefined), taken: sent.length });
}

// Sends lists one after the other: [{path, before, next}]. Returns {done, left, changed}: nothing
// is sent unless each list is the one that was judged, and what was sent is taken back if a later
// one fails. 'left' are the paths where that failed too; a fault has it as well. 'changed' is the
// path of the list that somebody else changed.
export async function sendAll(steps) {
  const seen = new Map();
  const isSame = async ({ path, before }) => {
    seen.set(path, await seeList('dacl', path));
    return seen.get(path).text === before;
  };
  const notSent = async ({ path }, sent) => (
    { done: false, left: await takeBack(sent, false), changed: path });
  for (const step of steps) if (!(await isSame(step))) return notSent(step, []);
  const sent = [];
  for (const step of steps) {
    try {
      if (sent.length > 0 && !(await isSame(step))) return await notSent(step, sent);
      const { path, next } = step;
      const isSent = await setIfSame('dacl', path, printList(next), seen.get(path));
      if (!isSent) return await notSent(step, sent);
    } catch (fault) {
      await afterFault(step, fault, sent);
    }
    sent.push({ ...step, after: step === steps.at(-1) ? null : await textAt(step.path) });
  }
  return { done: true, left: [], changed: null };
}
