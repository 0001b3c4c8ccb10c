// What a list would bring about that its author may not want, as sentences, before it is sent. The
// program is asked.

import { ANY_OTHER } from '../acl/callers.js';
import { isGroup, isInherited, printList, readListText } from '../acl/entries.js';
import { afterSending } from '../acl/inherit.js';
import { alone, objectsAlone } from '../acl/question.js';
import { texts } from '../language/language.js';
import { attributesAt, foldersAbove } from '../net/ancestors.js';
import * as api from '../net/api.js';
import { lookBelow } from '../net/crawl.js';
import { fullName, people } from '../net/directory.js';
import { wayObjects, withImagined } from '../net/pieces.js';
import { foresee } from '../net/would.js';
import { lossOf, lossWords } from './loss.js';
import { partyName } from './parties.js';
import { removalOf, removalWords } from './removers.js';
import { shortened } from './who_is.js';
import { isolated, placeWords } from './words.js';
import { isListFault, noAnswerWords } from './would_words.js';

// The own entries of 'sent' that allow something to those whom no entry of 'before' allowed
// anything.
export function added(sent, before) {
  const same = (one, other) => one.who === other.who && isGroup(one) === isGroup(other);
  const allowing = (entries) => entries.filter((entry) => entry.type === 'A' && entry.mask !== '');
  const known = allowing(before.entries);
  const fresh = allowing(sent.entries)
    .filter((entry) => !isInherited(entry) && !known.some((one) => same(one, entry)));
  return fresh.filter((entry, index) => fresh.findIndex((one) => same(one, entry)) === index);
}

const isEverybody = ({ who }) => who === 'EVERYONE@' || who === 'AUTHENTICATED@';

// The callers whom an entry means, or who may be among them.
function meant(entry, callers, object) {
  if (isEverybody(entry)) return callers.filter(({ key, owns }) => key === ANY_OTHER && !owns);
  const who = { 'OWNER@': object.owner, 'GROUP@': object.group }[entry.who] ?? entry.who;
  return isGroup(entry) || entry.who === 'GROUP@'
    ? callers.filter(({ user, groups, isExact }) => groups.includes(who)
      && (isExact || user === null))
    : callers.filter(({ user }) => user === who);
}

// Where those whom an entry means aren't surely let pass, of [{path, rows}] with a row for each of
// them, null where the list can't be read: {path, answer, depends, stopped}, or null. Some of those
// who are known may be stopped: then the answer is 'some'.
function hindrance(places) {
  const judged = places.map(({ path, rows, callers }) => {
    const passing = callers.filter((_, at) => rows?.[at]);
    if (rows === null || passing.length === callers.length) {
      return { path, answer: rows === null ? 'unread' : 'yes', depends: [], stopped: [] };
    }
    const stopped = callers.filter((_, at) => !rows[at]);
    const partly = stopped.every(({ isExact }) => isExact) ? 'some' : 'perhaps';
    const [fewest] = passing.sort((one, other) => one.groups.length - other.groups.length);
    const groups = new Set(passing.filter((one) =>
      one.groups.length === fewest?.groups.length).flatMap((one) => one.groups));
    return { path, answer: passing.length > 0 ? partly : 'no', depends: [...groups], stopped };
  });
  return judged.find(({ answer }) => answer === 'no')
    ?? judged.find(({ answer }) => answer !== 'yes') ?? null;
}

function nameOf(entry, object, known) {
  if (isEverybody(entry)) return texts.names.inSentence[entry.who];
  const who = { 'OWNER@': object.owner, 'GROUP@': object.group }[entry.who] ?? entry.who;
  return isGroup(entry) || entry.who === 'GROUP@' ? texts.who.group(who)
    : isolated(fullName(known, who));
}

// A sentence about one who can't get here, or perhaps not: {kind: 'bad' or 'unsure', text}.
function passageWords(entry, found, object, known) {
  const who = nameOf(entry, object, known);
  const place = found.path === null ? null : placeWords(found.path);
  if (isEverybody(entry) && found.answer !== 'unread') {
    return { kind: 'bad', text: texts.warnings.noPassageForAll(place) };
  }
  if (found.answer === 'no') return { kind: 'bad', text: texts.warnings.noPassage(who, place) };
  if (found.answer === 'some') {
    const names = shortened(found.stopped.map((one) => partyName(one, known)));
    return { kind: 'bad', text: texts.warnings.noPassageForSome(who, place, names) };
  }
  return { kind: 'unsure', text: found.answer === 'unread'
    ? texts.warnings.passageUnread(who, place)
    : texts.warnings.passageDepends(who, place, found.depends.map(texts.warnings.depends.group)) };
}

// Sentences about those who are added and can't get here, by what each list on the way says by
// itself, and this one where it passes something on.
async function passageOf({ fresh, after, kind, object, folders, known, me, sent }) {
  if (fresh.length === 0) return [];
  const lists = [...folders.filter(({ list }) => list !== null).map((one, at) => (
    { ...one, name: `b${at}`, kind: 'folder' })),
  ...kind === 'folder' && after.known
    ? [{ path: null, name: 't', kind, list: after, object }] : []];
  const said = await foresee({ objects: objectsAlone(lists), known, me,
    beside: [{ text: printList(sent), object }] });
  return fresh.flatMap((entry) => {
    const callers = meant(entry, said.callers, object);
    if (callers.length === 0) return [];
    const passesOn = kind === 'folder' && /[fd]/.test(entry.flags);
    const at = (path) => lists.find((one) => one.path === path);
    const row = (one) => callers.map((each) =>
      said.at(alone(one.name), each)?.mask.includes('x') === true);
    const places = [...folders.map(({ path }) => path), ...passesOn && at(null) ? [null] : []];
    const found = hindrance(places.map((path) => (
      { path, callers, rows: at(path) ? row(at(path)) : null })));
    return found ? [passageWords(entry, found, object, known)] : [];
  });
}

// What was seen further down, or why nothing was: {nodes, all, fault}.
const seenBelow = (kind, path) => (kind === 'folder' ? lookBelow(path).then(
  ({ nodes, unread }) => ({ nodes, all: unread.length === 0, fault: null }),
  (fault) => ({ nodes: [], all: false, fault })) : { nodes: [], all: true, fault: null });

// {loss: {title, text} or null, warned: [{kind, text}]} for a draft that is about to be sent. 'now'
// is the room's text.
export async function judged(draft, now) {
  const before = readListText(now).list;
  const sent = readListText(draft.text).list;
  // What can't be read is refused by the room, and the list of records decides nothing.
  if (!before || !sent || draft.which !== 'dacl') return { loss: null, warned: [] };
  return asked(draft, { now, before, sent }).catch((fault) => {
    const text = noAnswerWords(fault);
    return { loss: { title: texts.would.title, text }, warned: [{ kind: 'unsure', text }] };
  });
}

// The room tells which entry may not stand there.
const orRefused = (fault) => {
  if (isListFault(fault)) return null;
  throw fault;
};

async function asked({ path, kind }, { now, before, sent }) {
  const [me, object, folders, known, below] = await Promise.all([
    api.whoAmI().catch(() => ''), attributesAt(path), foldersAbove(path, true), people(),
    seenBelow(kind, path)]);
  const above = path === '/' ? null : folders.at(-1).list ?? undefined;
  const after = afterSending(sent, before, above, kind);
  const depth = (one) => one.path.split('/').length;
  const nodes = below.nodes.sort((one, other) => depth(one) - depth(other));
  const fresh = added(sent, before);
  const passage = passageOf({ fresh, after, kind, object, folders, known, me, sent });
  passage.catch(() => {}); // That is told once the rest is known.
  const said = await foresee({ known, me, changes: [{ set: path, text: printList(sent) }],
    objects: withImagined([...wayObjects(folders), { path, kind, text: now, object }, ...nodes],
      kind === 'folder' ? [path] : []) }).catch(orRefused);
  if (said === null) return { loss: null, warned: [] };
  const lost = lossOf(said, path, { me, after });
  const removal = removalOf(said, { path, kind }, { ...below, nodes, protect: sent.protect });
  return { loss: lost && lossWords(lost),
    warned: [...await passage, ...removalWords(kind, removal, known)] };
}
