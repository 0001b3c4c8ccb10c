// What the program answered: what each caller may do at a place, before a change and after it, and
// what that is as a level. Nothing here draws or asks.
//
//   const said = new Said(asked, looked, told, { mark, kindAt, cameFrom });
//   said.at(path, caller, AFTER)          {mask, removes, raw}, or null where it isn't known
//   said.extentAt(path, kind, caller, BEFORE)   {level, it, inside, own, all}, or null
//   said.places                           the paths with a row that says that something changes
//
// 'looked' are the rows of the question that looks at '/' and changes nothing, and 'told' those of
// the one that changes something, or null. 'kindAt' says what then stands at a path, and 'cameFrom'
// where that stood, or null of what comes.

import { ANY_OTHER } from './callers.js';
import { UNNAMED, imagined } from './question.js';

export const BEFORE = 0;
export const AFTER = 1;
// A row that says of all callers that it isn't known.
const NOT_KNOWN = '?';

// The letters of rights that say something: no request asks for the others, d says nothing that
// removing doesn't, and neither does D where nothing can be inside.
const [OF_FOLDER, OF_DOCUMENT] = ['rwaxDtcCo', 'rwaxtcCo'];
const toldOf = (kind, mask) => [...(kind === 'folder' ? OF_FOLDER : OF_DOCUMENT)]
  .filter((letter) => mask.includes(letter)).join('');

const above = (path) => (path === '/' ? null : path.slice(0, path.lastIndexOf('/')) || '/');
const NOTHING = { mask: '', removes: false, raw: '' };

const unmarked = (path, mark) => path.replaceAll(`/${mark}`, `/${UNNAMED}`);

// The rows of an answer by path and caller.
class Rows {
  constructor(rows, mark) {
    this.places = new Map();
    for (const [path, kind, key, ...said] of rows) {
      const at = unmarked(path, mark);
      if (!this.places.has(at)) this.places.set(at, { kind, callers: new Map() });
      this.places.get(at).callers.set(key, said);
    }
    [this.first = '/'] = this.places.keys();
  }

  // The nearest row above: undefined outside what there are rows of, null where it isn't known.
  nearest(path, key) {
    for (let at = path; at !== null; at = at === this.first ? null : above(at)) {
      const callers = this.places.get(at)?.callers;
      if (callers?.has(NOT_KNOWN)) return null;
      if (callers?.has(key)) return callers.get(key);
    }
    return undefined;
  }
}

const isChange = ([mask, removes, then, thenRemoves]) => mask !== then || removes !== thenRemoves;

export class Said {
  constructor(asked, looked, told, { mark, kindAt, cameFrom }) {
    this.asked = asked;
    this.kindAt = kindAt;
    this.cameFrom = cameFrom;
    this.looked = new Rows(looked, mark);
    this.told = told && new Rows(told, mark);
    const changes = (told ?? []).filter((row) => isChange(row.slice(3)));
    this.moving = new Set(changes.map(([, , key]) => key));
    this.places = new Set(changes.map(([path]) => unmarked(path, mark)));
  }

  get callers() { return this.asked.all; }

  // Those for whom something changes anywhere.
  get changing() { return this.asked.all.filter(({ key }) => this.moving.has(key)); }

  at(path, { key }, side = AFTER) {
    const said = (raw, removes) => (
      { mask: toldOf(this.kindAt(path), raw), removes: removes === 'yes', raw });
    const row = this.told?.nearest(path, key);
    if (row === null) return null;
    if (row !== undefined && isChange(row)) return said(...row.slice(2 * side, 2 * side + 2));
    const from = this.told === null ? path : this.cameFrom(path);
    if (from === null) return NOTHING;
    // Whom only the change names is one of all others before it.
    const before = this.looked.nearest(from, key) ?? this.looked.nearest(from, ANY_OTHER);
    return before ? said(before[0], before[1]) : null;
  }

  // What somebody may do there and with what is in it: {level, it, inside, own, all}. The level is
  // about the documents that others make there too; 'it' says whether they may remove the object,
  // 'inside' what others make in it (and so 'documents' and 'folders'), 'own' what they make there
  // themselves. 'all' has the rows of these, those of 'own' last.
  extentAt(path, kind, caller, side = AFTER) {
    const here = this.at(path, caller, side);
    if (here === null) return null;
    const its = kind === 'document' ? null : this.insideAt(path, caller, side);
    const makes = /[wa]/.test(here.mask) && caller.user !== null;
    const others = its === null ? [] : [its.other, its.folder, its.deep];
    return { level: levelOf(here, its && its.other), it: here.removes,
      inside: others.some(({ removes }) => removes),
      documents: its?.other.removes === true, folders: its?.folder.removes === true,
      own: its !== null && makes && its.own.removes,
      all: [here, ...others, ...its !== null && makes ? [its.own] : []] };
  }

  // The same of what is imagined in a folder.
  insideAt(path, caller, side) {
    return Object.fromEntries(Object.entries(imagined(path)).map(([name, one]) =>
      [name, this.at(one, caller, side) ?? NOTHING]));
  }
}

// What two rows are as a level: of an object, and of a document of somebody else in it.
export function levelOf({ mask, removes }, inside = null) {
  const [here, there] = [mask, inside?.mask ?? ''].map((one) => (letter) => one.includes(letter));
  if (here('C')) return 'manage';
  if (inside === null) {
    if (here('w')) return removes ? 'remove' : 'change';
    return here('r') ? 'read' : 'none';
  }
  if (here('r')) {
    if (inside.removes) return 'remove';
    if (there('w')) return 'change';
    if (here('w')) return 'add';
    return there('r') ? 'read' : 'see';
  }
  if (here('w')) return 'drop';
  return here('x') ? 'pass' : 'none';
}
