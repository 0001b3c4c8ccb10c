// What the panel of access says of one click, against what comes of it in a room at random:
// node unsaid.mjs PAGE TREES [SEED [PROGRAM]]
// The room is the one of model.mjs; what lies further down is what a door says of it.
// Whoever gains or loses something has to be named, with words that say as much as the right, and
// nothing may be said that isn't so. The last line is 'TREES tried, N faults'; the status is 1 if
// there are any.
import { resolve } from 'node:path';
import { pathToFileURL } from 'node:url';
import { Model, doorBelow } from './model.mjs';
import { askerOf } from './standing.mjs';

const [page, trees, from, program = null] = process.argv.slice(2);
const rowsOf = askerOf(program);
const module = (name) => import(`${pathToFileURL(resolve(page)).href}/${name}`);
const [lists, levels, consequences, words, { seenBelow }] = await Promise.all(
  ['entries.js', 'levels.js', 'consequences.js', 'access_words.js', 'seen_below.js'].map(module));

// Alice may change each list, and the program is stood in for.
globalThis.fetch = async (target, { body } = {}) => (target === 'door/would'
  ? Response.json({ rows: rowsOf(body), lists: [] }) : new Response('{"C":"allowed 1"}'));

let seed = Number(from ?? 5);
const random = (most) => {
  seed = (seed * 1103515245 + 12345) % 2147483648;
  return Math.floor(seed / 65536) % most;
};
const pick = (all) => all[random(all.length)];
const chance = (percent) => random(100) < percent;
const ALL = 'rwanNxDtThHdcCoy';
const USERS = ['alice', 'bob', 'carol', 'dana', 'kim', 'zoe'];
const GROUPS = { staff: ['bob', 'carol', 'kim'], sales: ['dana'] };
const groupsOf = (user) => Object.keys(GROUPS).filter((group) => GROUPS[group].includes(user));
const MASKS = ['rxtc', 'rwaxtc', 'rwaxDtc', ALL];
const entryOf = (text) => lists.readEntry(text).entry;

// Own lines of levels, in an order that the panel can say.
function linesAtRandom(kind) {
  const reach = kind === 'folder' ? 'fd' : '';
  const who = Array.from({ length: random(4) }, () => pick([
    ...USERS.slice(1).map((user) => [user, '']), ...Object.keys(GROUPS).map((name) => [name, 'g']),
    ['AUTHENTICATED@', '']]));
  const seen = [...new Map(who.map((one) => [one[0], one])).values()];
  const masks = kind === 'folder' ? MASKS : ['rxtc', 'rwaxtc', ALL];
  const made = seen.map(([name, group]) => [pick(masks), `${reach}${group}:${name}`]);
  const lines = (holds) => made.filter(([mask]) => holds(mask.includes('D') || mask === ALL))
    .map(([mask, rest]) => `A:${rest}:${mask}`);
  const keep = kind === 'folder' && chance(60) ? ['D:d:EVERYONE@:Dd'] : [];
  const own = keep.length > 0 && chance(40) ? ['A:fi:OWNER@:d'] : [];
  const ways = kind === 'folder' && chance(40)
    ? [`A::${pick([...USERS.slice(1), ...Array(5).fill('AUTHENTICATED@')])}:x`] : [];
  const drops = kind === 'folder' && chance(10) ? [`A:g:${pick(Object.keys(GROUPS))}:wx`] : [];
  return [...lines((isHead) => isHead), ...keep, ...lines((isHead) => !isHead), ...ways, ...drops,
    ...own].map(entryOf);
}

const KINDS = { folder: 'folder', document: 'document' };
function treeAtRandom() {
  const paths = [['/', KINDS.folder], ['/r', KINDS.folder]];
  for (let number = 0; number < 4 + random(8); number += 1) {
    const [folder] = pick(paths.filter(([path, kind]) => kind === KINDS.folder && path !== '/'));
    if (folder.split('/').length > 4) continue;
    paths.push([`${folder}/n${number}`, chance(50) ? KINDS.folder : KINDS.document]);
  }
  const given = new Map();
  // Some give again what the folder above gives.
  const linesFor = (path, kind) => {
    const above = given.get(path.slice(0, path.lastIndexOf('/'))) ?? [];
    const lines = kind === KINDS.folder && above.length > 0 && chance(30) ? above
      : linesAtRandom(kind);
    given.set(path, lines);
    return lines;
  };
  return paths.map(([path, kind]) => {
    const reach = kind === KINDS.folder ? 'fd' : '';
    const isPlain = path !== '/' && chance(45);
    const top = path === '/' ? [`A:${reach}:alice:${ALL}`, pick(['A::AUTHENTICATED@:xt',
      'A:g:staff:rxtc', 'A:fdg:staff:rxtc', 'A::AUTHENTICATED@:x'])].map(entryOf) : [];
    const isApart = !isPlain && path !== '/' && chance(25);
    const mine = isApart ? [entryOf(`A:${reach}:alice:${ALL}`)] : [];
    return { path, kind, owner: pick(['alice', 'bob', 'dana', 'kim']), group: 'office', auto: true,
      protect: isApart,
      own: [...top, ...mine, ...isPlain || path === '/' ? [] : linesFor(path, kind)] };
  });
}

const listOf = ({ auto, protect, full }) => ({ auto, protect, entries: full });
const objectOf = ({ owner, group }) => ({ owner, group });

// As crawl.js asks for what is above the object that the panel is about.
const restOf = (path, at) => (at !== path && at.startsWith(path === '/' ? '/' : `${path}/`)
  ? at.slice(path === '/' ? 1 : path.length + 1) : '');
const fromTop = (one, other) => Number(other.kind === 'folder') - Number(one.kind === 'folder')
  || one.path.split('/').length - other.path.split('/').length;

function stateOf(model, one, known) {
  const names = one.path === '/' ? [] : one.path.split('/').slice(1);
  const folders = names.map((_, at) => model.objects.get(`/${names.slice(0, at).join('/')}`));
  const told = (path) => seenBelow(doorBelow(model, path, restOf(path, one.path),
    (each) => lists.printList(listOf(each)))).nodes.sort(fromTop);
  const below = (path) => ({ unread: [], all: true, nodes: told(path) });
  const list = listOf(one);
  return { path: one.path, kind: one.kind, list, text: lists.printList(list), object: objectOf(one),
    me: 'alice', known, looking: { below, isBusy: false }, changeable: new Map(),
    folders: folders.map((each) => ({ path: each.path, list: listOf(each),
      object: objectOf(each), text: lists.printList(listOf(each)) })) };
}

// One click: {next, subject, isShare}, or null where the panel offers none.
function clickAtRandom({ list, kind, path }, model) {
  const { rows, why } = levels.readLevels(list, kind);
  if (why === 'open') return { next: levels.closedUp(list), subject: null };
  if (why !== null) return null;
  if (path !== '/' && chance(15)) {
    const folder = model.objects.get(path.slice(0, path.lastIndexOf('/')) || '/');
    const coming = model.objects.get(path).protect
      ? new Model([{ ...folder, path: '/', own: folder.full },
        { ...model.objects.get(path), path: '/x', own: [], protect: false, grey: null }])
        .objects.get('/x').full : [];
    return { subject: null, next: list.protect ? levels.joined(list, coming, kind)
      : levels.cutOff(list) };
  }
  const offered = kind === 'folder' ? ['read', 'change', 'remove', 'manage']
    : ['read', 'change', 'manage'];
  const own = rows.filter((row) => !row.inherited && row.level !== 'custom');
  if (own.length > 0 && chance(60)) {
    const row = pick(own);
    const level = chance(50) || row.level === 'pass' ? null : pick(offered);
    const next = levels.withLevel(list, kind, row, level, row.level === 'pass');
    return next && { next, level, subject: { who: row.who, isGroup: row.isGroup, name: row.who,
      isLeaving: level === null, level } };
  }
  const [who, isGroup] = pick([...USERS.slice(1).map((user) => [user, false]),
    ...Object.keys(GROUPS).map((group) => [group, true])]);
  if (rows.some((row) => row.who === who && !row.inherited)) return null;
  const level = pick(offered);
  const next = levels.withLevel(list, kind, { who, isGroup }, level);
  return next && { next, level, isShare: true,
    subject: { who, isGroup, name: who, isLeaving: false, level } };
}

const MOST = { 'can pass through': 'xt', 'can drop documents in': 'wx',
  'can see the names here': 'rxtc', 'can read': 'rxtc', 'can read and add': 'rwaxtc',
  'can add and change': 'rwaxtc', 'can change': 'rwaxtc',
  'can add, change and remove': 'rwaxDtc', 'can change and remove': 'rwaxDtc',
  'can manage': 'rwaxDtcCo', 'no access': '', 'can remove what is there': 'D' };
// What has to be so where it is said: here, or of the documents inside.
const LEAST = { 'can pass through': ({ here }) => here.includes('x'),
  'can drop documents in': ({ here }) => here.includes('w'),
  'can see the names here': ({ here }) => here.includes('r'),
  'can read': ({ here, inside }) => here.includes('r') && inside.includes('r'),
  'can read and add': ({ here }) => /r.*w|w.*r/.test(here),
  'can add and change': ({ here, inside }) => here.includes('r') && inside.includes('w'),
  'can change': ({ here }) => here.includes('w'),
  'can add, change and remove': ({ here, removesInside }) => here.includes('r') && removesInside,
  'can change and remove': ({ here, removes }) => here.includes('w') && removes,
  'can manage': ({ here }) => here.includes('C'),
  'no access': ({ here }) => !/[rwC]/.test(here), 'can remove what is there': () => true };
const REMOVING = ['can add, change and remove', 'can change and remove', 'can manage'];
const REMOVED = { 'remove it': 'it', 'remove what is there': 'inside',
  'remove what they made there': 'own', 'remove documents there': 'document',
  'remove folders there': 'folder' };

// {level, removes} of the words of a line: 'removes' has words of REMOVED. The level is null where
// they are about removing alone.
function meaningOf(text) {
  const said = text.replace(/ \(.*\)$/, '')
    .replace(/^no access any more( by this list)?$/, 'no access')
    .replace(/^.* now, then /, '');
  if (Object.hasOwn(MOST, said)) return { level: said, removes: [] };
  const gained = said.replace(/(^|, but )can’t .*$/, '');
  const removes = Object.keys(REMOVED).filter((words) => gained.includes(words))
    .map((words) => REMOVED[words]);
  const level = Object.keys(MOST).findLast((words) => gained.startsWith(`${words} and `));
  const isVague = removes.length === 0 && gained !== '';
  return { level: isVague ? said : level ?? null, removes };
}

const plain = (text) => text.replace(/[\u2068\u2069]/g, '');

// What the panel says: [{isGain, isKept, names, at, level, removes, clears, text}].
function claimsOf(state, outcome, { subject, isShare }) {
  const found = [...words.saidLines(state, outcome, subject),
    ...words.perhapsLines(state, outcome)].flatMap((line) => {
    const text = plain(line.words);
    const match = /^(?:.*?) – (.*?)(?:, at (\/\S*?))?(?:, by lines there)?$/.exec(text);
    if (!match || line.names.length === 0) return [];
    return [{ isGain: line.head === 'Gains:', isKept: line.head === 'Keeps:', text: match[1],
      names: line.names.map(plain), at: match[2] ?? state.path, ...meaningOf(match[1]) }];
  });
  // The sentence above the lines says the level that one person gets.
  if (subject && !subject.isGroup && subject.level && (isShare || subject.level)) {
    const text = words.levelWords(subject.level, state.kind).toLowerCase();
    found.unshift({ isGain: true, isSentence: true, names: [subject.who], at: state.path, text,
      ...meaningOf(text) });
  }
  return found;
}

const isIn = (path, folder) => path === folder || folder === '/' || path.startsWith(`${folder}/`);
const minus = (one, other) => [...one].filter((letter) => !other.includes(letter));

// What wasn't said of what one gains or loses at a place, or null. 'had' and 'has' are {letters,
// removes}.
function unsaidAt(claims, hints, { caller, one, had, has, openedAt }) {
  // Whom no list names is one of all others.
  const isNamed = claims.some(({ names }) => names.includes(caller.name));
  const about = claims.filter(({ names, at }) => isIn(one.path, at)
    && (names.includes(caller.name) || (!isNamed && names.includes('everyone who signs in'))));
  const lost = minus(had.letters, has.letters);
  if (lost.length > 0 || (had.removes && !has.removes)) {
    if (!about.some((claim) => !claim.isGain && !claim.isKept)) {
      return `lost ${lost.join('')}${had.removes && !has.removes ? ' and removing' : ''}, unsaid`;
    }
  }
  const gains = minus(has.letters, had.letters);
  let removing = has.removes && !had.removes;
  if (removing && hints.isOwnNew && one.owner === caller.user) removing = false;
  if (removing && one.kind === 'document' && hints.owners.includes(caller.name)
    && one.owner === caller.user) removing = false;
  const isPassing = gains.every((letter) => 'xt'.includes(letter));
  if (isPassing && openedAt.includes(one.path)) gains.length = 0;
  if (gains.length === 0 && !removing) return null;
  const nearest = about.filter(({ isKept }) => !isKept)
    .sort((left, right) => left.at.length - right.at.length).at(-1);
  const got = `got ${gains.join('')}${removing ? ' and removing' : ''}`;
  if (nearest === undefined) return `${got}, unsaid`;
  const { level, removes, at } = nearest;
  // On a document D says nothing.
  const most = level === null ? '' : MOST[level] ?? ALL;
  const beyond = gains.filter((letter) => !most.includes(letter)
    && !(letter === 'D' && (one.kind === 'document'
      || removes.some((what) => ['inside', 'folder', 'document'].includes(what)))));
  const isTheirs = one.owner === caller.user
    && (level === 'can add and change' || removes.includes('own'));
  const isRemovingSaid = REMOVING.includes(level) || isTheirs
    || removes.includes(at === one.path ? 'it' : 'inside') || removes.includes(one.kind);
  if (beyond.length > 0 || (removing && !isRemovingSaid)) {
    return `${got}, beyond “${nearest.text}”`;
  }
  return null;
}

// Words that say that there are rights, and not which.
const VAGUE = /^(not the same rights as now|some more rights)$/;

// What was said and isn't so, or null.
function wrongOf(claim, caller, before, after) {
  const one = after.objects.get(claim.at);
  const { letters: here, removes } = after.rights(claim.at, caller);
  const { letters: inside, removes: removesInside } = one.kind === 'folder'
    ? after.inside(claim.at, caller) : { letters: here, removes };
  if (claim.level !== null && !VAGUE.test(claim.level) && Object.hasOwn(LEAST, claim.level)
    && !LEAST[claim.level]({ here, inside, removes, removesInside })) {
    return `“${claim.text}” at ${claim.at} isn’t so: ${here}, inside ${inside}`;
  }
  if (claim.removes.includes('it') && !removes) {
    return `“${claim.text}” at ${claim.at}: can’t remove it`;
  }
  if (claim.isKept || claim.isSentence) return null;
  const changes = [...after.objects.keys()].filter((path) => isIn(path, claim.at)).some((path) => {
    const [had, has] = [before, after].map((model) => model.rights(path, caller));
    return had.letters !== has.letters || had.removes !== has.removes;
  }) || (one.kind === 'folder' && [before, after].map((model) =>
    JSON.stringify(model.inside(claim.at, caller))).reduce((had, has) => had !== has));
  return changes || one.kind === 'folder' ? null
    : `“${claim.text}” at ${claim.at}: nothing changes`;
}

const CALLERS = {
  members: [...USERS.map((user) => ({ user, groups: groupsOf(user), name: user })),
    { user: null, groups: [], name: 'everyone else who signs in' }],
  names: [...USERS.map((user) => ({ user, groups: [], name: user })),
    ...Object.keys(GROUPS).map((group) => ({ user: null, groups: [group],
      name: `the group ${group}` })),
    { user: null, groups: [], name: 'everyone who signs in' }],
};
const KNOWN = {
  members: { made: new Date().toISOString(), members: true, users: USERS, groups: GROUPS,
    names: {} }, names: null,
};

const count = { tried: 0, changed: 0, claims: 0, kept: 0, backs: 0, backText: 0 };
const faults = [];

function thereAndBack(state, { next, level, isShare, subject }, say) {
  if (!isShare) return;
  const back = levels.withLevel(next, state.kind, subject, null, level === 'pass');
  const sorted = ({ entries }) => entries.filter((entry) => !lists.isInherited(entry))
    .map(lists.printEntry).sort().join('\n');
  count.backText += 1;
  if (back === null || sorted(back) !== sorted(state.list)) {
    say(`there and back: ${back && sorted(back)}`);
  }
}

// Whom the change isn't about keeps all rights, but for removing by the lines that come with it.
function otherOf(click, caller, had, has) {
  const { subject } = click;
  const isMeant = subject === null || subject.who.endsWith('@')
    || (subject.isGroup ? caller.groups.includes(subject.who) : caller.user === subject.who);
  return isMeant || had.letters === has.letters ? null
    : `of another one: ${had.letters}, then ${has.letters}`;
}

async function tryOne(mode) {
  const tree = treeAtRandom();
  const before = new Model(tree);
  const alice = CALLERS.members[0];
  const editable = [...before.objects.values()].filter(({ path }) =>
    before.rights(path, alice).letters.includes('C'));
  const state = stateOf(before, pick(editable), KNOWN[mode]);
  const click = clickAtRandom(state, before);
  if (click === null) return;
  const near = await consequences.nearOf(state, click.next, click.subject);
  const outcome = await consequences.outcomeOf(state, click.next, click.subject, near);
  const after = before.copy();
  const open = outcome.opening.filter(({ next }) => next !== null);
  for (const { path, next } of open) after.set(path, next);
  after.set(state.path, click.next);
  const claims = claimsOf(state, outcome, click);
  const say = (text) => faults.push(`${text}\n  ${mode}, ${JSON.stringify(click.subject)} at ${
    state.path}\n  ${[...before.objects.values()].map((one) => `${one.path} ${one.owner} ${
      one.protect ? 'p ' : ''}${one.full.map(lists.printEntry).join(' ')}`).join('\n  ')}\n  then ${
    click.next.entries.map(lists.printEntry).join(' ')}\n  ${words.saidLines(state, outcome,
    click.subject).map((line) => plain(`${line.head} ${line.words}`)).join('\n  ')}`);
  // All that is said can be said.
  const others = [...words.hintsOf(state, outcome), ...words.warningsOf(state, outcome),
    ...words.offersOf(state, outcome, click.subject)];
  if (others.some((one) => JSON.stringify(one).includes('undefined'))) say('undefined is said');
  count.tried += 1;
  count.claims += claims.length;
  count.kept += outcome.kept.length;
  for (const { text, at } of claims.filter((one) => VAGUE.test(one.text))) say(`${text}, at ${at}`);
  thereAndBack(state, click, say);
  const hints = { isOwnNew: outcome.isOwnNew, owners: outcome.owners.map(({ user }) => user) };
  const openedAt = open.map(({ path }) => path);
  for (const caller of CALLERS[mode]) {
    for (const one of after.objects.values()) {
      const [had, has] = [before, after].map((model) => model.rights(one.path, caller));
      const isSame = had.letters === has.letters && had.removes === has.removes;
      const fault = isSame ? null : otherOf(click, caller, had, has)
        ?? unsaidAt(claims, hints, { caller, one, had, has, openedAt });
      count.changed += isSame ? 0 : 1;
      if (fault) say(`${caller.name} at ${one.path}: ${fault}`);
    }
    for (const claim of claims.filter(({ names }) => names.includes(caller.name))) {
      const wrong = wrongOf(claim, caller, before, after);
      if (wrong) say(`${caller.name}: ${wrong}`);
    }
    const kept = mode === 'members' && unkept(claims, state, caller, before, after);
    if (kept) say(`${caller.name} ${kept}`);
  }
  const beside = state.list.protect === click.next.protect ? besideOf(state, click) : [];
  if (beside.length > 0) say(`written beside: ${beside.map(lists.printEntry)}`);
  takenBack(state, outcome, click, after, mode, say);
}

// Whoever loses something here and can do more further down, by lines there, is named.
function unkept(claims, { path: top }, caller, before, after) {
  const letters = (model, path) => model.rights(path, caller).letters;
  if (minus(letters(before, top), letters(after, top)).length === 0) return null;
  const has = [...letters(after, top)].filter((letter) => 'rwC'.includes(letter));
  const clears = (path) => after.objects.get(path).kind === 'folder'
    && after.inside(path, caller).removes;
  const place = [...after.objects.values()].find((one) => one.path !== top && isIn(one.path, top)
    && (one.own.length > 0 || one.protect)
    && ((clears(one.path) && !clears(top) && one.own.some(({ mask }) => /[Dd]/.test(mask)))
      || [...letters(after, one.path)].some((letter) => 'rwC'.includes(letter)
        && !has.includes(letter) && !(letter === 'w' && has.includes('C'))))
    && !claims.some(({ isKept, names, at }) => isKept && at === one.path
      && names.includes(caller.name)));
  return place ? `keeps ${letters(after, place.path)} at ${place.path}, unsaid` : null;
}

// Beside the lines of the one who is meant, only those are written that keep things in place.
function besideOf({ list }, { next, subject }) {
  const old = list.entries.map(lists.printEntry);
  return next.entries.filter((entry) => !old.includes(lists.printEntry(entry))
    && !lists.isInherited(entry) && entry.who !== subject?.who && !entry.who.endsWith('@')
    && /[^Dd]/.test(entry.mask));
}

// What is taken back further down says nothing but what is taken away here, and is of nobody else.
function takenBack({ list }, outcome, { next: sent, subject }, after, mode, say) {
  const gone = list.entries.filter((entry) =>
    !sent.entries.map(lists.printEntry).includes(lists.printEntry(entry)));
  const steps = outcome.back.filter(({ isSame }) => isSame);
  if (steps.length === 0) return;
  count.backs += 1;
  const then = after.copy();
  for (const { path, before, next } of steps) {
    const now = lists.printList(listOf(then.objects.get(path)));
    if (now !== before) say(`taken back at ${path}, which has\n${now}`);
    const lines = listOf(then.objects.get(path)).entries.filter((entry) =>
      !next.entries.map(lists.printEntry).includes(lists.printEntry(entry)));
    const isMore = (entry) => !gone.some((one) => one.who === entry.who
      && one.flags.includes('g') === entry.flags.includes('g')
      && [...entry.mask].every((letter) => one.mask.includes(letter)));
    if (lines.some(isMore)) say(`more is taken back at ${path}: ${lines.map(lists.printEntry)}`);
    then.set(path, next);
  }
  for (const caller of CALLERS[mode]) {
    const isMeant = subject.isGroup ? caller.groups.includes(subject.who)
      : caller.user === subject.who;
    if (isMeant) continue;
    for (const path of then.objects.keys()) {
      const [had, has] = [after, then].map((model) => model.rights(path, caller));
      if (had.letters !== has.letters || had.removes !== has.removes) {
        say(`taken back, ${caller.name} at ${path}: ${had.letters}, then ${has.letters}`);
      }
    }
  }
}

for (let number = 0; number < Number(trees); number += 1) {
  await tryOne(number % 3 === 0 ? 'names' : 'members');
}
for (const one of faults.slice(0, Number(process.env.MOST ?? 3))) console.log(one);
console.log(JSON.stringify(count));
console.log(`${trees} tried, ${faults.length} faults`);
process.exitCode = faults.length === 0 ? 0 : 1;
