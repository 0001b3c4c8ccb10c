// What of one dialog is unsaid or said falsely: {unsaid, wrong, compared, differ} of what it
// showed, by reviews before and after.
import { judgeWritten } from './by_hand.mjs';
import { judgeReturned } from './nights.mjs';
import { judgePassage } from './passage.mjs';
import { ME } from './playing.mjs';
import { State } from './reviewed.mjs';
import { claimsOf, looksWrong, namesIn, unsaidAt, wrongOf } from './said.mjs';
import { judgeMove, movesIn } from './said_of_moves.mjs';
import { GROUPS, USERS } from './trees.mjs';
import {
  OTHERS, REAL, UNREAD, callersIn, coversIn, coversNames, groupsOf, keyOf, meantBy,
} from './worlds.mjs';

const mine = { user: ME, groups: [], world: REAL };
const isIn = (path, folder) => path === folder || path.startsWith(`${folder}/`);
const above = (path) => path.slice(0, path.lastIndexOf('/'));

const TAKEN = /^Also take back what is kept there: (.*)\.$/m;
const WAY_UNREAD = /You may not see who may pass through (.*) on the way here/;

const cameBy = ({ moved = [], comes = [] }) => (path) => {
  if (comes.some((one) => isIn(path, one))) return null;
  const one = moved.find(({ to }) => isIn(path, to));
  return one ? one.from + path.slice(one.to.length) : path;
};

// Folders whose lists what is made in them follows.
const passingIn = (tree) => new Set(tree.filter(({ kind, list }) => kind === 'folder'
  && /^(null|list:.*a)/.test(String(list).split('\n')[0])).map(({ path }) => path));

// A tree, before and after, and what was shown of it.
class Case {
  // The rows are those of each world.
  constructor({ mode, tree }, shown, [before, after]) {
    const came = cameBy(shown);
    const passing = passingIn(tree);
    Object.assign(this, { mode, tree, shown, came, before: new State(before, passing, came),
      after: new State(after, passing), seen: new Map() });
    const [first] = after.values();
    this.paths = [...first.keys()].filter((path) => isIn(path, tree[0].path));
    this.objects = new Map(tree.map((one) => [one.path, one]));
  }

  // Of what I may not read nothing can be said, but that.
  isSeen(path) {
    if (!this.seen.has(path)) {
      const may = (at, letter) => this.before.at(at, mine).letters.includes(letter);
      this.seen.set(path, may(path, 'c') && (path === this.tree[0].path
        || (this.isSeen(above(path)) && may(above(path), 'r'))));
    }
    return this.seen.get(path);
  }

  // The same of what lies at the object that is asked about, whatever is above it, or below.
  isSeenThere(path) {
    const { path: top } = this.shown;
    const may = (at, letter) => this.before.at(at, mine).letters.includes(letter);
    return isIn(path, top) && may(path, 'c')
      && (path === top || (may(above(path), 'r') && this.isSeenThere(above(path))));
  }

  // Whether what is said there is of what a ticked box takes back with it. Where it isn't ticked,
  // that has to be so.
  isTakenBack(path) {
    const { text, isTakenBack } = this.shown;
    const [, places = ''] = TAKEN.exec(text) ?? [];
    return isTakenBack && [...places.matchAll(/“(.*?)”/g)].some(([, place]) => isIn(path, place));
  }

  // Whether a list on the way there that I may not read bars a caller, before or after, and it is
  // said that it isn't known whom it lets pass: then what is said of them holds if it does.
  isPerhapsBarred(caller) {
    const names = WAY_UNREAD.exec(this.shown.text)?.[1] ?? '';
    return this.tree.map(({ path }) => path).filter((path) => this.shown.path.startsWith(`${path}/`)
      && names.includes(`“${path.slice(path.lastIndexOf('/') + 1)}”`)
      && !this.before.at(path, mine).letters.includes('c')).some((path) =>
      [this.before, this.after].some((state) => !state.at(path, caller).letters.includes('x')));
  }

  kindOf(path) { return this.objects.get(this.came(path) ?? path)?.kind ?? 'document'; }

  ownerOf(path) {
    const from = this.came(path);
    return from === null ? ME : this.objects.get(from)?.owner ?? null;
  }

  // Of owners whom no list names it isn't asked which groups they could be in.
  get askedFor() { return new Set([...USERS, ...this.mode === 'm' ? OTHERS : []]); }

  callers(users) { return callersIn(this.mode, new Set(users)).filter(({ user }) => user !== ME); }
}

const nothing = () => ({ unsaid: [], wrong: [], compared: 0, differ: 0 });

// Of a list by hand only some of what comes of it is told. Others own what lies there.
function judgeByHand(one) {
  const { mode, tree, shown, before, after, paths } = one;
  if (!one.isSeen(shown.path)) return nothing();
  const found = judgeWritten(shown, { before, after, mine, callers: one.callers(USERS),
    all: one.callers([...USERS, ...OTHERS]),
    covers: (names, caller) => coversNames([names], mode)(names, caller),
    paths: paths.filter((path) => path.startsWith(`${shown.path}/`)) });
  const way = [above(tree[0].path), ...tree.map(({ path }) => path)]
    .filter((path) => shown.path.startsWith(`${path}/`));
  const passage = judgePassage(shown, { mode, way, after, object: one.objects.get(shown.path),
    callers: callersIn(mode, new Set([...USERS, ...OTHERS])),
    isKnown: before.at(shown.path, mine).letters.includes('t')
      && way.every((path) => before.at(path, mine).letters.includes('c')) });
  return { ...found, unsaid: [...found.unsaid, ...passage.unsaid],
    wrong: [...found.wrong, ...passage.wrong] };
}

// Whether a sentence about whoever owned some of these, or was in its group, is about a caller.
const coversOwners = (objects, mode) => (names, { user, groups }) => {
  const [isGroup, isOwner] = UNREAD.map((one) =>
    namesIn(names).some((name) => name.toLowerCase() === one));
  const all = mode === 'm' ? groupsOf(mode).filter((one) => GROUPS[one].includes(user)) : groups;
  return objects.some(({ owner, group }) => (isOwner && owner === user)
    || (isGroup && all.includes(group)));
};

// What comes back is judged by the night, which is how it was before.
function judgeNight(one) {
  const { mode, shown, before, after } = one;
  const paths = shown.missing.filter((path) => one.isSeen(path));
  const objects = paths.map((path) => one.objects.get(path));
  // Nobody is in another group.
  const unread = objects.some(({ group }) => groupsOf(mode).includes(group)) ? [] : [UNREAD[0]];
  const coversOwner = coversOwners(objects, mode);
  return judgeReturned(shown, { before, after, paths, callers: one.callers(one.askedFor),
    unjudged: [ME, ...OTHERS, ...unread],
    covers: (names, caller) => coversNames([names], mode)(names, caller)
      || coversOwner(names, caller) });
}

// Nobody is in other groups.
const isOfRoom = (mode) => (name) =>
  meantBy(name)?.groups.every((one) => groupsOf(mode).includes(one)) ?? true;

// What I gain or lose by a move myself isn't told.
function judgeMoved(one) {
  const { mode, shown: { text, warnings, moved: [{ from, to }] }, before, after } = one;
  const claims = movesIn(warnings);
  const isKnown = (path) => !text.includes('isn’t known')
    || (one.isSeen(path) && one.isSeen(one.came(path)));
  const paths = one.paths.filter((path) => isIn(path, to))
    .map((path) => [from + path.slice(to.length), path]);
  const callers = one.callers([...USERS, ...OTHERS])
    .map((caller) => ({ ...caller, key: `${caller.user} ${caller.groups}` }));
  return { compared: paths.length * callers.length, differ: claims.length,
    ...judgeMove(claims, { paths, root: above(from), isKnown, callers, before, after,
      isJudged: (names) => namesIn(names).some(isOfRoom(mode)),
      covers: coversNames(claims.map(({ names }) => names), mode) }) };
}

// That it isn't known what comes of it somewhere, or here at all.
const UNSEEN = /what happens there isn’t known|isn’t known who gets it here/;

// What can't be found from the folder on, where that is said, isn't said of the person either.
function judgeLook(one) {
  const { mode, tree, shown, before } = one;
  const those = tree.filter(({ path }) => isIn(path, shown.path));
  const seen = those.filter(({ path }) => one.isSeenThere(path));
  const callers = callersIn(mode, new Set([...USERS, ...OTHERS]))
    .filter((caller) => !one.isPerhapsBarred(caller));
  return { ...nothing(), compared: seen.length,
    unsaid: seen.length === those.length || UNSEEN.test(shown.text) ? []
      : [`not all in ${shown.path} is seen, unsaid`],
    wrong: looksWrong(shown.looks, callers, seen, before) };
}

const isSame = (one, other) => one.letters === other.letters && one.removes === other.removes;

// Who gains and who loses, by lines of the dialog.
function judgeLines(one) {
  const { mode, shown, before, after, paths } = one;
  const claims = claimsOf(shown);
  const said = { ...shown, claims, covers: coversIn(claims, mode) };
  const found = nothing();
  const isAboveUnknown = shown.text.includes('isn’t known who gets it here');
  if (isAboveUnknown && shown.text.includes('Nobody')) found.wrong.push(shown.text);
  for (const caller of callersIn(mode, one.askedFor)) {
    for (const path of paths) {
      const [had, has] = [before, after].map((state) => state.at(path, caller));
      found.compared += 1;
      if (isSame(had, has)) continue;
      found.differ += 1;
      if (!(one.isSeen(path) || one.isSeenThere(path)) || isAboveUnknown) {
        if (!UNSEEN.test(shown.text)) found.unsaid.push(`${path} isn’t known, unsaid`);
        continue;
      }
      const fault = unsaidAt(said, caller,
        { path, kind: one.kindOf(path), owner: one.ownerOf(path) }, had, has);
      if (fault) found.unsaid.push(`${caller.name} ${caller.groups} at ${path}: ${fault}`);
    }
  }
  found.wrong.push(...claims.flatMap((claim) => claim.names.flatMap((name) =>
    wrongName(one, claim, name))));
  return found;
}

// Of some of what is in a folder it has to be so of one, which isn't known of folders.
function claimsAt(one, claim) {
  if (!claim.isSome || claim.isInside === 'folders') return [claim];
  return one.paths.filter((path) => path.startsWith(`${claim.at}/`)
    && one.kindOf(path) === 'document').map((at) => ({ ...claim, at, isInside: null }));
}

// What isn't so of one whom a line names.
function wrongName(one, claim, name) {
  const { mode, before, after } = one;
  const meant = meantBy(name);
  if (UNREAD.includes(name)) return [];
  if (meant === null) return [`nobody is “${name}”`];
  if (!isOfRoom(mode)(name)) return [];
  const caller = { ...meant, world: mode === 'm' ? REAL : keyOf(meant.groups) };
  if (one.isPerhapsBarred(caller)) return [];
  // They had it, in any case.
  const isBack = one.isTakenBack(claim.at) && claim.level !== 'no access';
  const found = claimsAt(one, claim).map((each) =>
    wrongOf(each, caller, (path) => one.kindOf(path), before, isBack ? before : after));
  return found.every(Boolean) ? [`${name}: ${found[0]}`] : [];
}

const WAYS = [['looks', judgeLook], ['isReturned', judgeNight], ['isByHand', judgeByHand],
  ['moved', judgeMoved]];

// 'rows' are those before and after.
export function judge(turn, shown, rows) {
  const one = new Case(turn, shown, rows);
  const [, way] = WAYS.find(([key]) => shown[key]) ?? [null, judgeLines];
  return way(one);
}
