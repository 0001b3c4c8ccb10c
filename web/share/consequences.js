// What a new list would bring about: who gains and who loses, here and further down, who can't get
// here, and whether I keep it. The program is asked, and access_words.js says it in sentences.

import { isGroup, printList } from '../acl/entries.js';
import { afterSending, isException, listsThen } from '../acl/inherit.js';
import { isOwn } from '../acl/levels.js';
import { imagined } from '../acl/question.js';
import { together } from '../net/crawl.js';
import { foresee } from '../net/would.js';
import { keptFrom } from './kept_below.js';
import { lossOf } from '../text/loss.js';
import { removalOf } from '../text/removers.js';
import { furtherLines, leftovers, objectsRound, wayOf } from './passage.js';
import { isMeant } from './subjects.js';
import { changesAt, changesBelow, keptBelow, ofOwners } from './who_can.js';

const NOTHING = { nodes: [], unread: [], all: true };
const isBelow = (path, folder) => path.startsWith(folder === '/' ? '/' : `${folder}/`);

// What was seen below the object by now.
export const belowOf = ({ kind, path, looking }) =>
  (kind === 'folder' ? looking.below(path) : NOTHING);

const firstOf = (opening) => opening.find(({ next }) => next !== null);

// What was seen below the first folder that is opened.
const openedBy = (state, opening) =>
  (firstOf(opening) ? state.looking.below(firstOf(opening).path) : NOTHING);

// What opening the way lets these get at beside the object. That somebody passes through what is
// opened is said already; what is in it is a place by itself.
function besideOf(said, opening, nodes) {
  const open = opening.filter(({ next }) => next !== null);
  const folders = open.map(({ path }) => ({ path, kind: 'folder', text: '' }));
  const inside = open.flatMap(({ path }) => [
    { path: imagined(path).other, kind: 'document', text: '' },
    { path: imagined(path).folder, kind: 'folder', text: '' }]);
  const found = changesBelow(said, [...folders, ...inside, ...nodes], [], '/',
    open.map(({ path }) => path));
  // Of folders there it is told where they have other lines than documents.
  const levels = new Set(found.flatMap(({ path, changes }) =>
    changes.map(({ id, to }) => `${path} ${id} ${to}`)));
  const others = new Map(open.map(({ path }) => [imagined(path).folder, imagined(path).other]));
  return withChanges(found, (changes, { path }) => changes.filter(({ id, to, gained }) =>
    (to !== 'pass' || gained.length > 0 || !open.some((one) => one.path === path))
    && !levels.has(`${others.get(path)} ${id} ${to}`)));
}

// Of these levels it is said that they remove what they added.
const REMOVING_OWN = ['change', 'remove', 'manage'];

// Those whose own objects they may then remove, or no longer, where nothing else says it.
function ownersOf(said, { inside, beside }, changes) {
  const [here, there] = [ofOwners(said, inside, REMOVING_OWN), ofOwners(said, beside)];
  const lost = new Set(changes.filter(({ more, lost, to }) => !more
    && (lost.length > 0 || !REMOVING_OWN.includes(to))).map(({ id }) => id));
  return { owners: [...here.gaining, ...there.gaining],
    losers: here.losing.filter(({ id }) => !lost.has(id)) };
}

// Whether I lose the list by this: null, or {loss, exact, givers, nobody}.
function lockOf({ path, me }, said, after) {
  const loss = lossOf(said, path, { me, after });
  const managers = said.callers.filter((caller) => !caller.isPerhaps
    && said.at(path, caller)?.mask.includes('C'));
  return loss && { loss, exact: said.asked.isExact, givers: managers, nobody: loss.isNobody };
}

// What is told of the lines of both lists.
function linesIn(list, after, kind) {
  const hasOwn = ({ entries }) => entries.some((entry) => isOwn(entry, kind));
  return { isOwnNew: hasOwn(after) && !hasOwn(list),
    hasGroups: [list, after].some(({ entries }) =>
      entries.some((entry) => isGroup(entry) && entry.mask !== '')) };
}

// What is sure, and what isn't since it isn't known who is in which groups.
export const surely = (changes) => changes.filter(({ isPerhaps, owns }) => !isPerhaps || owns);
const perhapsIn = (changes) => changes.filter(({ isPerhaps, owns }) => isPerhaps && !owns);
export const withChanges = (places, of) => places
  .map((one) => ({ ...one, changes: of(one.changes, one) }))
  .filter((one) => one.changes.length > 0);

// What isn't sure, of the object, of places below and of what callers own.
export const perhapsOf = (changes, below, { owners, losers }) => ({ changes: perhapsIn(changes),
  below: withChanges(below, perhapsIn), owners: perhapsIn(owners), losers: perhapsIn(losers) });

// {after, gaining, opening}: what can be said of a list before anything further down is seen.
export async function nearOf(state, next, subject) {
  const { path, kind, list, folders } = state;
  const last = folders.at(-1);
  const after = afterSending(next, list, path === '/' ? null : last.list ?? undefined, kind);
  return { after, ...await wayOf(state, after, subject) };
}

// What was seen of what is asked about: {nodes, inside, beside, seen}.
function nodesOf(state, opening) {
  const [found, opened] = [belowOf(state), openedBy(state, opening)];
  const nodes = opened !== NOTHING && opened.all ? opened.nodes : found.nodes;
  const isHere = ({ path }) => isBelow(path, state.path);
  return { nodes, inside: nodes.filter(isHere), found,
    beside: nodes.filter((one) => !isHere(one) && one.path !== state.path
      && !opening.some(({ path, next }) => next !== null && path === one.path)),
    isAll: found.all && opened.all, unread: together(found.unread, opened.unread) };
}

// 'state' is what share.js shows, 'next' the list that would be sent, 'near' what nearOf says of
// it, and 'subject' whom it is about, or null. Returns all that is said of it, by what 'looking'
// saw further down until now.
export async function outcomeOf(state, next, subject, near) {
  const { path, kind, list, known, me } = state;
  const { after, opening } = near;
  const { nodes, inside, beside, found, ...seen } = nodesOf(state, opening);
  const said = await foresee({ objects: objectsRound(state, nodes), known, me, changes: [
    ...opening.filter((one) => one.next !== null)
      .map((one) => ({ set: one.path, text: printList(one.next) })),
    { set: path, text: printList(next) }] });
  const top = { path, kind };
  const all = changesAt(said, top);
  const changes = surely(all);
  const full = { ...next, entries: after.entries };
  const lists = listsThen(inside, path, full);
  const places = inside.filter((one) => isException(one) && lists.has(one.path))
    .map((one) => ({ ...one, list: lists.get(one.path) }));
  const losing = changes.filter(({ more, isRemoval }) => !more && !isRemoval);
  const kept = keptBelow(said, inside, losing, top);
  const below = [...changesBelow(said, inside, all, path), ...besideOf(said, opening, beside)];
  const own = ownersOf(said, { inside, beside }, all);
  const isLeaving = subject?.isLeaving === true;
  const ofSubject = places.filter((place) => kept.some((one) => one.path === place.path
    && one.kept.some(isMeant(subject))));
  return {
    changes, opening, kept, ...seen, asked: said.asked,
    owners: surely(own.owners), losers: surely(own.losers),
    apart: inside.filter((one) => isException(one) && one.list.protect),
    gains: changes.filter(({ more }) => more), losses: changes.filter(({ more }) => !more),
    below: withChanges(below, surely), isKnown: after.known,
    perhaps: perhapsOf(all, below, own),
    keptFrom: await keptFrom(state, places, subject),
    left: isLeaving ? await leftovers(state, next, subject) : [],
    back: isLeaving ? await furtherLines(state, next, ofSubject, subject) : [],
    removal: removalOf(said, top, { nodes: inside, all: found.all, protect: next.protect }),
    ...linesIn(list, after, kind), lock: lockOf(state, said, after),
  };
}

// Calls 'draw' with what comes of a list, and with whether more is looked for further down: soon,
// and again until all of it was seen or 'isWanted()' no longer holds.
export async function followOutcome(state, next, subject, isWanted, draw) {
  const { looking } = state;
  if (looking.isOld) looking.forget();
  // The door answers one after the other, and what is short before what is long.
  const asked = nearOf(state, next, subject);
  belowOf(state);
  looking.run();
  const near = await asked;
  openedBy(state, near.opening);
  await looking.follow(async (isBusy) => {
    const outcome = await outcomeOf(state, next, subject, near);
    // What is said may want more to be looked at.
    if (isWanted()) draw(outcome, isBusy || looking.isBusy);
  }, isWanted);
}
