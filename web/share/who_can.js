// Who gains and who loses by a change, here and further down, by what the program answered. Nothing
// here draws or asks.

import { AFTER, BEFORE } from '../acl/answer.js';
import { toTell } from '../acl/callers.js';
import { RANKS, lettersIn } from '../acl/levels.js';
import { FOLLOWS, UNNAMED, imagined } from '../acl/question.js';

const rank = (level) => RANKS.indexOf(level);
const isRemover = (level) => level === 'remove' || level === 'manage';
const REMOVALS = ['it', 'inside', 'own'];
// Of what is inside, where some of it may be removed by both states.
const KINDS = ['documents', 'folders'];
const NOTHING = { mask: '', removes: false };

// What of one state isn't in another one, as words: of an object and of what is in it.
const lacking = (all, others, sign) => all.flatMap(({ mask, removes }, at) => {
  const other = others[at] ?? NOTHING;
  return [...[...mask].filter((letter) => !other.mask.includes(letter)),
    ...removes && !other.removes ? ['removes'] : []].map((word) => `${sign}${at}${word}`);
});

// What may be removed by one state and not by another one.
const removalsOnly = (one, other) => [...REMOVALS, ...one.inside && other.inside ? KINDS : []]
  .filter((each) => one[each] && !other[each]);

// How a caller's rights at an object differ: {caller, says, from, to, more, gained, lost,
// isRemoval, isBeyond}, or null. 'more' is false for whoever also loses something. 'gained' and
// 'lost' say what they may then remove or no longer by words of REMOVALS, 'isRemoval' that nothing
// else differs, and 'isBeyond' that more is gained than the level has, as by lists that somebody
// wrote by hand. 'says' has all of it as words.
function differenceAt(said, { path, kind }, caller) {
  const [had, has] = [BEFORE, AFTER].map((side) => said.extentAt(path, kind, caller, side));
  if (had === null || has === null) return null;
  const says = new Set([...lacking(has.all, had.all, '+'), ...lacking(had.all, has.all, '-')]);
  if (says.size === 0) return null;
  const [from, to] = [had.level, has.level];
  const letters = lettersIn(to);
  return { caller, says, from, to,
    isBeyond: [...says].some((one) => /^\+\d.$/.test(one) && !letters.includes(one.at(-1))),
    more: ![...says].some((one) => one.startsWith('-')) && rank(to) >= rank(from),
    isRemoval: from === to && [...says].every((one) => /(D|removes)$/.test(one)),
    gained: removalsOnly(has, had), lost: removalsOnly(had, has) };
}

// Whose rights at an object differ: callers, each with what differenceAt says.
export const changesAt = (said, place) => toTell(said.changing.map((caller) =>
  differenceAt(said, place, caller)).filter((one) => one !== null))
  .map(({ caller, ...change }) => ({ ...caller, ...change }));

const isIn = (path, folder) => path.startsWith(folder === '/' ? '/' : `${folder}/`);

// What of a change further down isn't said by that of the nearest place above: the level, what may
// be removed, or that something is lost, such as to read where they only passed above. A level that
// stays isn't said.
function isNews(one, above, kind) {
  if (above === undefined || (above.more && !one.more)
    || (!one.more && rank(one.from) > rank(above.from))
    || (one.isBeyond && !above.isBeyond)) return true;
  const ofKind = kind === 'folder' ? 'folders' : 'documents';
  const isSaid = (words) => one[words].every((word) =>
    above[words].includes(word === 'it' ? ofKind : word)
    || (word !== 'own' && above[words].includes('inside')));
  const isGained = isRemover(above.to) && above.to !== above.from;
  const isLost = isRemover(above.from) && !isRemover(above.to);
  return one.to !== above.to || !(isGained || isSaid('gained'))
    || !(isLost || above.to === 'none' || isSaid('lost'));
}

const namedIn = (path) => path.slice(0, path.indexOf(`/${UNNAMED}`)) || '/';

// Whether a change of what only follows a folder, such as what belongs to another group, is other
// than that of what is imagined there. Of their own, ofOwners says who removes it.
function apartFrom(said) {
  const twins = new Map();
  return ({ path, kind, object }, { id, user, says }) => {
    if (!path.includes(UNNAMED)) return false;
    const twin = imagined(namedIn(path))[kind === 'folder' ? 'folder' : 'other'];
    if (!twins.has(twin)) {
      twins.set(twin, new Map(said.changing.map((caller) => (
        [caller.id, differenceAt(said, { path: twin, kind }, caller)?.says ?? new Set()]))));
    }
    const [here, there] = [says, twins.get(twin).get(id)].map((all) =>
      [...all].filter((word) => object.owner !== user || !word.endsWith('removes')).sort());
    return here.join() !== there.join();
  };
}

// What only follows one folder, and differs, is one place.
function joinedSome(places) {
  const some = new Map();
  return places.filter((one) => {
    const key = `${one.kind} ${namedIn(one.path)}`;
    const first = one.isSome ? some.get(key) : undefined;
    if (one.isSome && !first) some.set(key, one);
    first?.changes.push(...one.changes.filter(({ id, to }) =>
      !first.changes.some((other) => other.id === id && other.to === to)));
    return first === undefined;
  });
}

// Where something differs further down, other than at the nearest place above of which it is told:
// [{path, kind, isSome, changes}], of which 'isSome' says that it is about some of what only
// follows there. 'nodes' come from the top down, and 'changes' are those at the top. That
// somebody passes isn't told where that is offered, at the paths of 'offered'.
export function changesBelow(said, nodes, changes, path = '/', offered = []) {
  const seen = new Map(changes.map((one) => [one.id, [{ path, ...one }]]));
  // Folders that are opened come before what is above them.
  const nearest = (at, { id }) => (seen.get(id) ?? []).filter((one) => isIn(at, one.path))
    .sort((one, other) => one.path.length - other.path.length).at(-1);
  const isApart = apartFrom(said);
  return joinedSome(nodes.filter(({ text }) => text !== null).map((node) => ({
    path: node.path, kind: node.kind, isSome: node.text === FOLLOWS,
    changes: changesAt(said, node).filter((one) => {
      if (node.text === FOLLOWS && !isApart(node, one)) return false;
      const isTold = isNews(one, nearest(node.path, one), node.kind);
      const isOffered = one.to === 'pass' && one.gained.length === 0 && offered.includes(node.path);
      if (isTold && !isOffered) {
        seen.set(one.id, [...seen.get(one.id) ?? [], { path: node.path, ...one }]);
      }
      return isTold;
    }) })).filter((one) => one.changes.length > 0));
}

// What callers can still do further down by what stands there, other than what they can do at the
// top then: [{path, kind, kept: [{..caller, to, gained}]}].
export function keptBelow(said, nodes, losing, top) {
  const at = ({ path, kind }, caller) => {
    const [here, above] = [said.extentAt(path, kind, caller),
      said.extentAt(top.path, top.kind, caller)];
    if (here === null || above === null) return [];
    const gained = ['it', 'inside'].filter((one) => here[one] && !above[one]);
    return gained.length > 0
      || (rank(here.level) > rank('pass') && rank(here.level) > rank(above.level))
      ? [{ ...caller, to: here.level, gained }] : [];
  };
  return nodes.filter(({ text }) => text !== FOLLOWS && text !== null).map((node) => ({
    path: node.path, kind: node.kind, kept: losing.flatMap((one) => at(node, one)) }))
    .filter(({ kept }) => kept.length > 0);
}

// Those whose own objects they may then remove, or no longer, where these only follow their folder:
// {gaining, losing}, each [{..caller, count}]. One that was seen may stand for several. What is
// gained isn't told of folders where their level is one of 'saying'.
export function ofOwners(said, nodes, saying = []) {
  const removes = (path, caller, side) => said.at(path, caller, side)?.removes === true;
  const theirs = ({ user }) => nodes.filter((one) => one.text === FOLLOWS
    && one.path.includes(UNNAMED) && one.object.owner === user);
  const isTold = ({ path }, caller) =>
    saying.includes(said.extentAt(namedIn(path), 'folder', caller)?.level);
  const counted = (from, to) => toTell(said.callers.filter(({ user }) => user !== null)
    .map((caller) => ({ caller, says: new Set(theirs(caller).filter((one) =>
      !removes(one.path, caller, from) && removes(one.path, caller, to)
        && !(to === AFTER && isTold(one, caller)))) }))
    .filter(({ says }) => says.size > 0))
    .map(({ caller, says }) => (
      { ...caller, count: [...says].reduce((sum, { count }) => sum + count, 0) }));
  return { gaining: counted(BEFORE, AFTER), losing: counted(AFTER, BEFORE) };
}
