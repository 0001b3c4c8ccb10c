// A room as docs/access-lists.md says it, for tests: what each may do, and what a list that is sent
// does to all below. It shares nothing with the page but the form of an entry.

export const LETTERS = 'rxwaDtcCo';

const isOwn = ({ flags }) => !flags.includes('I');
const above = (path) => path.slice(0, path.lastIndexOf('/')) || '/';

function means({ who, flags }, caller, { owner, group }) {
  switch (who) {
    case 'EVERYONE@': case 'AUTHENTICATED@': return true;
    case 'ANONYMOUS@': return false;
    case 'OWNER@': return caller.user !== null && caller.user === owner;
    case 'GROUP@': return caller.groups.includes(group);
    default: return flags.includes('g') ? caller.groups.includes(who) : caller.user === who;
  }
}

// What the first entry says that is in force, means the caller and has the right: A, D, or nothing.
function ruling(entries, letter, caller, object) {
  for (const entry of entries) {
    if (entry.flags.includes('i') || !entry.mask.includes(letter)) continue;
    if (means(entry, caller, object)) return entry.type;
  }
  return '';
}

// One entry as a child has it, or none.
function inherited(entry, kind) {
  const [f, d, n] = ['f', 'd', 'n'].map((flag) => entry.flags.includes(flag));
  const rest = ['S', 'F', 'g'].filter((flag) => entry.flags.includes(flag)).join('');
  const as = (flags) => [{ ...entry, flags }];
  if (kind === 'document') return f ? as(`${rest}I`) : [];
  if (d) return as(`${n ? '' : `${f ? 'f' : ''}d`}${rest}I`);
  return f && !n ? as(`fi${rest}I`) : [];
}

export class Model {
  // 'objects' are [{path, kind, owner, group, auto, protect, own: entries}], from the top down.
  constructor(objects) {
    this.objects = new Map(objects.map((one) => [one.path, { ...one }]));
    for (const one of this.objects.values()) this.fill(one);
  }

  fill(one) {
    const folder = one.path === '/' ? null : this.objects.get(above(one.path));
    // What was made in a folder has what that passed down then.
    const isLinked = folder !== null && !one.protect && (folder.auto || one.isNew === true);
    one.grey = isLinked ? folder.full.flatMap((entry) => inherited(entry, one.kind))
      : one.grey ?? [];
    one.full = [...one.own, ...one.grey];
  }

  copy() {
    const made = Object.create(Model.prototype);
    made.objects = new Map([...this.objects].map(([path, one]) => [path, { ...one }]));
    return made;
  }

  // Sets a list, as the page sends it.
  set(path, { auto, protect, entries }) {
    const one = this.objects.get(path);
    Object.assign(one, { auto, protect, own: entries.filter(isOwn),
      grey: entries.filter((entry) => !isOwn(entry)) });
    for (const each of this.objects.values()) {
      if (each.path === path || path === '/' || each.path.startsWith(`${path}/`)) this.fill(each);
    }
  }

  // Moves an object with all in it, as the operator would.
  move(path, to) {
    const isIn = (one) => one === path || one.startsWith(`${path}/`);
    const depth = ({ path: at }) => (at === '/' ? 0 : at.split('/').length);
    const all = [...this.objects.values()].map((one) => (isIn(one.path)
      ? { ...one, path: `${to}${one.path.slice(path.length)}` } : one));
    this.objects = new Map(all.sort((one, other) => depth(one) - depth(other))
      .map((one) => [one.path, one]));
    for (const one of this.objects.values()) this.fill(one);
  }

  passes(path, caller) {
    for (let at = path; at !== '/';) {
      at = above(at);
      const folder = this.objects.get(at);
      if (ruling(folder.full, 'x', caller, folder) !== 'A') return false;
    }
    return true;
  }

  // {letters, removes} of a caller, as the program's review has them.
  rights(path, caller) {
    if (!this.passes(path, caller)) return { letters: '', removes: false };
    const one = this.objects.get(path);
    const letters = [...LETTERS].filter((letter) => ruling(one.full, letter, caller, one) === 'A')
      .join('');
    return { letters, removes: path !== '/' && this.removes(one, this.objects.get(above(path)),
      caller) };
  }

  removes(one, folder, caller) {
    const d = ruling(one.full, 'd', caller, one);
    const D = ruling(folder.full, 'D', caller, folder);
    if (d === 'A' || D === 'A') return true;
    return d === '' && D === '' && ruling(folder.full, 'w', caller, folder) === 'A';
  }

  // The same of a document that somebody else made in a folder.
  inside(path, caller) {
    const folder = this.objects.get(path);
    if (!this.passes(`${path === '/' ? '' : path}/new`, caller)) {
      return { letters: '', removes: false };
    }
    const one = { owner: '', group: folder.group,
      full: folder.full.flatMap((entry) => inherited(entry, 'document')) };
    return { letters: [...LETTERS].filter((letter) =>
      ruling(one.full, letter, caller, one) === 'A').join(''),
    removes: this.removes(one, folder, caller) };
  }
}

const NOTHING = { lists: new Set(), listings: new Set() };

// What docs/door.md says that /door/below/TOP?REST answers. 'closed' are the paths whose lists the
// caller may not read, and of folders whose contents they may not list.
export function doorBelow(model, top, rest, textOf, closed = NOTHING) {
  const isIn = (path, folder) => folder === '/' || path.startsWith(`${folder}/`);
  const names = rest === '' ? [] : rest.split('/');
  const apart = names.map((_, at) =>
    `${top === '/' ? '' : top}/${names.slice(0, at + 1).join('/')}`);
  const saysOwner = ({ full }) => full.some(({ who, flags }) =>
    ['OWNER@', 'GROUP@'].includes(who) && !flags.includes('i'));
  const near = new Map([[top, [top, 0]]]);
  const [objects, rows, unread] = [[], new Map(), new Map()];
  const isSeen = (path) => path === top || !closed.listings.has(path);
  const isRead = (path) => !closed.lists.has(path);
  for (const one of model.objects.values()) {
    const { path, kind, owner, group } = one;
    const folder = above(path);
    if (path === top || !isIn(path, top) || !near.has(folder) || !isSeen(folder)) continue;
    const follows = one.own.length === 0 && !one.protect && !apart.includes(path)
      && (kind === 'document' || (one.auto && !saysOwner(one))) && model.objects.get(folder).auto
      && isRead(path) && isRead(folder);
    if (!isRead(path) && kind === 'document') {
      near.set(path, [path, 0]);
      unread.set(folder, (unread.get(folder) ?? 0) + 1);
    } else if (follows) {
      const [below, depth] = near.get(folder);
      near.set(path, [below, Math.min(depth + 1, 2)]);
      const row = { below, kind, depth: near.get(path)[1], owner, group };
      const key = JSON.stringify(row);
      rows.set(key, { ...row, count: (rows.get(key)?.count ?? 0) + 1 });
    } else {
      near.set(path, [path, 0]);
      objects.push({ path, kind, owner, group, list: isRead(path) ? textOf(one) : null });
    }
  }
  const listOf = (path) => (isRead(path) ? textOf(model.objects.get(path)) : null);
  return { at: top, list: listOf(top), objects, rest: [...rows.values()],
    unlisted: [...near.keys()].filter((path) => !isSeen(path)
      && model.objects.get(path).kind === 'folder'),
    unread: [...unread].map(([path, count]) => ({ in: path, kind: 'document', count })) };
}
