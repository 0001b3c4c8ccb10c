// What web/net/would.js asks and takes from the answer, in rooms at random, against what comes of
// the change: node asking.mjs PAGE ROOMS [PROGRAM]
// The room is that of model.mjs, and what lies further down what a door says of it. Whoever gains
// or loses something has it in the answer, at each object, and nobody else. With a PROGRAM that is
// asked, or else standing.mjs, which is then compared with it. The last line is 'ROOMS tried, N
// faults'.
import { resolve } from 'node:path';
import { pathToFileURL } from 'node:url';
import { Model, doorBelow } from './model.mjs';
import { askerOf, rowsOf } from './standing.mjs';

const [page, rooms, program] = process.argv.slice(2);
const module = (name) => import(`${pathToFileURL(resolve(page)).href}/${name}`);
const [lists, { foresee }, { seenBelow }, { BEFORE, AFTER }, question] = await Promise.all(
  ['entries.js', 'would.js', 'seen_below.js', 'answer.js', 'question.js'].map(module));

let seed = 7;
const random = (most) => {
  seed = (seed * 1103515245 + 12345) % 2147483648;
  return Math.floor(seed / 65536) % most;
};
const pick = (all) => all[random(all.length)];
const chance = (percent) => random(100) < percent;
const ALL = 'rwanNxDtThHdcCoy';
const USERS = ['alice', 'bob', 'carol', 'dana', 'kim', 'zoe'];
const GROUPS = { staff: ['bob', 'carol', 'kim'], sales: ['dana', 'kim'], board: ['zoe', 'carol'] };
const KNOWN = { members: true, users: USERS, groups: GROUPS, names: {}, made: '' };
const groupsOf = (user) => Object.keys(GROUPS).filter((one) => GROUPS[one].includes(user));
const entryOf = (text) => lists.readEntry(text).entry;

const faults = [];
const say = (text) => faults.push(text);
const sorted = (rows) => rows.map((row) => JSON.stringify(row)).sort();
const letters = 'rxwaDtdcCo';
const plain = (mask) => [...letters].filter((one) => one !== 'd' && mask.includes(one)).join('');

const inOrder = (rows) => sorted(rows.map(([path, kind, who, had, removed, has, removes]) =>
  [path, kind, who, plain(had), removed, plain(has), removes]));
const byProgram = askerOf(program);
let questions = 0;
globalThis.fetch = async (target, { body }) => {
  if (target !== 'door/would') throw new Error(target);
  questions += 1;
  const rows = rowsOf(body);
  if (!program) return Response.json({ rows, lists: [] });
  const told = byProgram(body);
  // What differs in d alone may stand or not.
  const [one, other] = [rows, told].map(inOrder);
  const isSame = (row) => {
    const [, , , had, removed, has, removes] = JSON.parse(row);
    return had === has && removed === removes;
  };
  const beside = (those, all) => those.filter((row) => !all.includes(row) && !isSame(row));
  const differs = [...beside(one, other), ...beside(other, one)];
  if (differs.length > 0) say(`standing.mjs: ${differs.slice(0, 4)}\n${body}`);
  return Response.json({ rows: told, lists: [] });
};

const ownOf = (kind) => Array.from({ length: random(4) }, () => {
  const [who, group] = pick([...USERS.map((user) => [user, '']),
    ...Object.keys(GROUPS).map((one) => [one, 'g']), ['OWNER@', ''], ['GROUP@', ''],
    ['AUTHENTICATED@', '']]);
  const reach = kind === 'folder' ? pick(['fd', 'fd', '', 'f', 'fi', 'fdn', 'd', 'di']) : '';
  return entryOf(`${pick(['A', 'A', 'A', 'D'])}:${reach}${group}:${who}:${
    pick(['rxtc', 'rwaxtc', 'rwaxDtc', 'x', 'wx', 'Dd', 'd', ALL])}`);
});

function treeAtRandom() {
  const paths = [['/', 'folder'], ['/r', 'folder'], ['/s', 'folder']];
  for (let number = 0; number < 4 + random(10); number += 1) {
    const [folder] = pick(paths.filter(([path, kind]) => kind === 'folder' && path !== '/'));
    paths.push([`${folder}/n${number}`, pick(['folder', 'document'])]);
  }
  return new Model(paths.map(([path, kind]) => ({ path, kind, owner: pick(USERS),
    group: pick(['staff', 'office']), auto: kind === 'document' || random(8) > 0,
    protect: path !== '/' && chance(20), own: chance(60) || path === '/' ? [
      ...path === '/' ? [entryOf('A::AUTHENTICATED@:x')] : [], ...ownOf(kind)] : [] })));
}

const listOf = ({ auto, protect, full }) => ({ auto, protect, entries: full });
const textOf = (one) => lists.printList(listOf(one));

// What the page has read of all: from the top, in the form of a door. 'closed' are the lists that
// it may not read, and 'unowned' what it may not know whose it is.
function seen(model, closed, unowned) {
  const top = model.objects.get('/');
  const hidden = new Set(closed);
  const { nodes } = seenBelow(doorBelow(model, '/', '', textOf,
    { lists: hidden, listings: new Set() }));
  const depth = ({ path }) => path.split('/').length;
  const first = { path: '/', kind: 'folder', text: textOf(top), list: listOf(top),
    object: { owner: top.owner, group: top.group } };
  const objects = [first, ...nodes.sort((one, other) => depth(one) - depth(other))].map((one) => (
    unowned.includes(one.path) ? { ...one, object: { owner: null, group: null } } : one));
  return { objects: [...objects, ...objects.filter(({ kind, path }) =>
    kind === 'folder' && !path.includes('\u0000')).flatMap(question.imaginedIn)],
  unsaid: nodes.filter(({ count }) => count === 0).map(({ path }) => path) };
}

const isIn = (path, folder) => path === folder || path.startsWith(`${folder}/`);

// {change, lists, isHidden, then}: what is asked, and what it does to the room.
function changeAtRandom(model, named) {
  const some = [...model.objects.values()].filter(({ path }) => path !== '/' && named.has(path));
  const one = pick(some);
  const listFor = (kind, grey) => ({ auto: true, protect: chance(30),
    entries: [...ownOf(kind), ...grey] });
  const into = pick(some.filter(({ kind, path }) =>
    kind === 'folder' && !isIn(path, one.path))) ?? model.objects.get('/');
  const how = random(3);
  if (how === 0) {
    const list = listFor(one.kind, one.grey);
    return { change: { set: one.path, text: lists.printList(list) }, lists: [list],
      then: (after) => after.set(one.path, list) };
  }
  const to = `${into.path === '/' ? '' : into.path}/new`;
  if (how === 1) {
    return { change: { move: one.path, to }, lists: [], then: (after) => after.move(one.path, to) };
  }
  const [kind, object] = [pick(['folder', 'document']), { owner: pick(USERS), group: 'office' }];
  const list = { auto: true, protect: true, entries: ownOf(kind) };
  const follows = into.auto && chance(50);
  return { change: { come: to, kind, object, text: follows ? 'follows' : lists.printList(list) },
    lists: follows ? [] : [list],
    then: (after) => {
      after.objects.set(to, { path: to, kind, ...object, auto: true, protect: !follows,
        own: follows ? [] : list.entries });
      after.fill(after.objects.get(to));
    } };
}

const count = { compared: 0, unknown: 0, came: 0 };
// 'where' says where an object of then stood, or null; 'isHidden' of which nothing is known.
function compare(said, [before, after], caller, groups, { where, isHidden, tell }) {
  const person = { user: caller.owns === 'OWNER@' ? '\u0002' : caller.user ?? '\u0001', groups };
  for (const [path, { kind }] of after.objects) {
    const from = where(path);
    for (const [side, model, at] of [[BEFORE, before, from], [AFTER, after, path]]) {
      const { letters: is, removes } = at === null ? { letters: '', removes: false }
        : model.rights(at, person);
      const wanted = plain(is).replace(kind === 'folder' ? '' : 'D', '');
      const got = said.at(path, caller, side);
      count.compared += 1;
      if (isHidden(path) || (from !== null && isHidden(from))) count.unknown += 1;
      else if (got === null || plain(got.mask) !== wanted || got.removes !== removes) {
        tell(`${caller.key} at ${path}, ${side}: ${JSON.stringify(got)}, not ${wanted} ${removes}`);
      }
      if (isHidden(path) && got !== null) tell(`${path} isn't known: ${JSON.stringify(got)}`);
    }
  }
}

async function tryOne(number) {
  const model = treeAtRandom();
  const paths = [...model.objects.keys()].slice(1);
  const closed = chance(20) ? [pick(paths)] : [];
  const unowned = chance(20) ? paths.filter(() => chance(30)) : [];
  const { objects, unsaid } = seen(model, closed, unowned);
  const named = new Set(objects.map(({ path }) => path));
  const { change, lists: more, then } = changeAtRandom(model, named);
  const isKnown = number % 2 === 0;
  const said = await foresee({ objects, changes: [change], known: isKnown ? KNOWN : null,
    me: 'alice' });
  const before = model.copy();
  const isUnowned = said.callers.some(({ owns }) => owns);
  for (const path of unowned.filter((one) => named.has(one))) {
    Object.assign(before.objects.get(path), isUnowned ? { owner: '\u0002', group: '\u0003' }
      : { owner: '', group: '' });
  }
  const after = before.copy();
  then(after);
  const where = (path) => {
    if (change.come) return path === change.come ? null : path;
    return change.move && isIn(path, change.to)
      ? `${change.move}${path.slice(change.to.length)}` : path;
  };
  // What follows a folder has no name in what a door says, or isn't said whose it is.
  const isOfOwners = more.some(({ entries }) => entries.some(({ who }) => /^(OWN|GRO)/.test(who)));
  for (const path of [...after.objects.keys()]) {
    const from = where(path) ?? '/';
    if (!named.has(from) || (isOfOwners && unsaid.some((one) => isIn(from, one)))) {
      after.objects.delete(path);
    }
  }
  const isHidden = (path) => closed.some((one) => isIn(path, one)
    || (where(change.to ?? change.come ?? '') !== null && isIn(where(path) ?? path, one)));
  const tell = (text) => say(`${text}\n  ${JSON.stringify(change)} closed ${closed} unowned ${
    unowned}\n  ${[...model.objects.values()].map((one) => `${one.path} ${one.owner} ${one.group} ${
    textOf(one).trim().replaceAll('\n', ' ')}`).join('\n  ')}`);
  for (const caller of said.callers) {
    const groups = isKnown && caller.user !== null ? groupsOf(caller.user) : caller.groups;
    const owning = caller.owns === 'GROUP@' ? ['\u0003'] : groups;
    compare(said, [before, after], caller, owning, { where, isHidden, tell });
  }
  if (change.come) count.came += 1;
}

for (let number = 0; number < Number(rooms); number += 1) await tryOne(number);
for (const one of faults.slice(0, Number(process.env.MOST ?? 3))) console.log(one);
console.log(JSON.stringify({ ...count, questions }));
console.log(`${rooms} tried, ${faults.length} faults`);
process.exitCode = faults.length === 0 ? 0 : 1;
