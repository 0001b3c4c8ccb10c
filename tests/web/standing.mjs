// `rooms would` in the place of the program, by the room of model.mjs: for tests that ask thousands
// of questions. asking.mjs compares it with the program.
import { spawnSync } from 'node:child_process';
import { Model } from './model.mjs';

const readEntry = (line) => {
  const [type, flags, who, mask] = line.split(':');
  return { type, flags, who, mask };
};
const isOwn = ({ flags }) => !flags.includes('I');

function listIn(lines) {
  const [first, ...rest] = lines.filter((line) => !line.startsWith('#:'));
  const entries = rest.map(readEntry);
  return { auto: /^list:.*a/.test(first), protect: /^list:.*p/.test(first), entries,
    own: entries.filter(isOwn), grey: entries.filter((entry) => !isOwn(entry)) };
}

// {pairs, sets, objects, changes}, each with its body.
function read(text) {
  const parts = [];
  for (const line of text.replace(/\n$/, '').split('\n')) {
    if (/^(member|as|folder\+?|document\+?|set|move|look|lists)( |$)/.test(line)) {
      parts.push({ line, body: [] });
    } else if (line.startsWith('to ')) parts.at(-1).to = line.slice(3);
    else parts.at(-1).body.push(line);
  }
  return parts.map((part) => {
    const [word, ...rest] = part.line.split(' ');
    const behind = (count) => rest.slice(count).join(' ');
    return { ...part, word, rest, behind };
  });
}

function objectOf({ word, rest, behind, body }) {
  const kind = word.replace('+', '');
  const follows = body[0] === 'follows';
  const list = follows || body[0] === 'unread' ? { auto: true, protect: false, own: [], grey: [] }
    : listIn(body);
  return { path: behind(2), kind, owner: rest[0] === '?' ? '' : rest[0],
    group: rest[1] === '?' ? '' : rest[1], ...list, isUnread: body[0] === 'unread',
    isNew: follows };
}

const above = (path) => path.slice(0, path.lastIndexOf('/')) || '/';
const isIn = (path, folder) => path === folder || folder === '/' || path.startsWith(`${folder}/`);

// The room as one caller sees it, who owns what is of each.
function asSeenBy(model, { user }) {
  const seen = model.copy();
  for (const one of seen.objects.values()) if (one.owner === '=') one.owner = user;
  return seen;
}

// Whether nothing is said there: a list at the object or above it isn't known.
const isHidden = (model, path) => [...model.objects.values()].some((one) =>
  one.isUnread && isIn(path, one.path));

// A list that is set is known from then on, and none that followed the one before.
function set(model, path, list) {
  const one = model.objects.get(path);
  if (one.isUnread && !(path !== '/' && isHidden(model, above(path)))) {
    for (const each of model.objects.values()) {
      if (each.path !== '/' && above(each.path) === path) each.isUnread = true;
    }
    one.isUnread = false;
  }
  model.set(path, list);
}

function move(model, path, to) {
  if (path !== '/' && isHidden(model, above(path))) model.objects.get(path).isUnread = true;
  model.move(path, to);
}

function changed(model, changes) {
  for (const change of changes) {
    const { word, behind, body, to } = change;
    if (word === 'set') set(model, behind(0), listIn(body));
    else if (word === 'move') move(model, behind(0), to);
    else {
      const one = objectOf(change);
      model.objects.set(one.path, { ...one });
      model.fill(model.objects.get(one.path));
      model.objects.get(one.path).isNew = false;
    }
  }
  return model;
}

// The deepest object in which all of these are.
function together(paths) {
  let front = paths[0] ?? '/';
  while (!paths.every((path) => isIn(path, front))) front = above(front);
  return front;
}

function callersIn(parts, models) {
  const groups = new Map();
  const users = new Set();
  for (const { rest: [group, user] } of parts.filter(({ word }) => word === 'member')) {
    groups.set(user, [...groups.get(user) ?? [], group]);
  }
  for (const user of groups.keys()) users.add(user);
  for (const { objects } of models) {
    for (const { owner, full } of objects.values()) {
      if (owner !== '' && owner !== '=') users.add(owner);
      for (const { who, flags } of full) {
        if (!flags.includes('g') && !who.endsWith('@')) users.add(who);
      }
    }
  }
  const stranger = '\u0001';
  const sets = parts.filter(({ word }) => word === 'as').map(({ rest: [key, user, all] }) => (
    { key, user: user === '*' ? stranger : user, groups: all.split(',') }));
  return [...[...users].sort().map((user) => ({ key: user, user, groups: groups.get(user) ?? [] })),
    { key: '*', user: stranger, groups: [] }, ...sets];
}

const wordOf = (removes) => (removes ? 'yes' : 'no');

// [[path, kind, caller, rights, remove, then, then_remove]], without those of ANONYMOUS@. The
// rights have the letters of model.mjs.
export function rowsOf(text) {
  const parts = read(text);
  const isObject = ({ word }) => word === 'folder' || word === 'document';
  const before = new Model(parts.filter(isObject).map(objectOf));
  for (const one of before.objects.values()) {
    // A folder that was made is as the one that it was made in.
    if (one.isNew && one.path !== '/') one.auto = before.objects.get(above(one.path)).auto;
    one.isNew = false;
  }
  const changes = parts.filter(({ word }) =>
    ['set', 'move', 'folder+', 'document+'].includes(word));
  const looks = parts.filter(({ word }) => word === 'look').map(({ behind }) => behind(0));
  const after = changed(before.copy(), changes);
  const from = (path) => changes.filter(({ word }) => word !== 'set').reduceRight(
    (at, { word, behind, to }) => {
      if (at === null || (word !== 'move' && isIn(at, behind(2)))) return null;
      return word === 'move' && isIn(at, to) ? `${behind(0)}${at.slice(to.length)}` : at;
    }, path);
  const targets = changes.map(({ word, behind, to }) => {
    if (word === 'move') return to;
    return word === 'set' ? behind(0) : behind(2);
  });
  const first = together([...targets, ...looks]);
  const callers = callersIn(parts, [before, after]);
  const seen = new Map(callers.map((one) => [one.key, [before, after].map((model) =>
    asSeenBy(model, one))]));
  return comparedRows({ before, after, from, first, callers, seen,
    isLook: changes.length === 0 });
}

function comparedRows({ before, after, from, first, callers, seen, isLook }) {
  const rows = [];
  const said = new Map();
  const isUnknown = (path) => isHidden(after, path)
    || (from(path) !== null && isHidden(before, from(path)));
  const isSame = ([had, removed, has, removes]) => had === has && removed === removes;
  for (const [path, one] of after.objects) {
    if (!isIn(path, first)) continue;
    if (isUnknown(path)) {
      const isFirst = path === first || !isUnknown(above(path));
      if (isFirst) rows.push([path, one.kind, '?', '', '', '', '']);
      continue;
    }
    for (const caller of callers) {
      const [was, is] = seen.get(caller.key);
      const had = from(path) === null ? { letters: '', removes: false }
        : was.rights(from(path), caller);
      const has = is.rights(path, caller);
      const now = [had.letters, wordOf(had.removes), has.letters, wordOf(has.removes)];
      const near = said.get(`${caller.key} ${above(path)}`);
      said.set(`${caller.key} ${path}`, now);
      const isLeft = path !== first && near && (now.join() === near.join()
        || (!isLook && isSame(now) && isSame(near)));
      if (!isLeft) rows.push([path, one.kind, caller.key, ...now]);
    }
  }
  return rows;
}

// The same of the program, or of rowsOf where there is none.
export function askerOf(program) {
  if (!program) return rowsOf;
  return (text) => {
    const { stdout, status } = spawnSync(program, ['would'], { input: text, encoding: 'utf8',
      maxBuffer: 1 << 26 });
    if (status !== 0) throw new Error(`${stdout}\n${text}`);
    return stdout.trimEnd().split('\n').slice(1).map((line) => line.split(','))
      .filter(([, , who]) => who !== 'ANONYMOUS@');
  };
}
