// In which order the contents of a folder are shown, and which of them.

import { language, texts } from '../language/language.js';
import { fullName } from '../net/directory.js';

const reading = new Intl.Collator(language, { numeric: true });
const isFolder = ({ kind }) => kind === 'folder';

const byName = (one, other) => reading.compare(one.name, other.name)
  || (one.name < other.name ? -1 : 1);

// 'Folder', or what the end of a document's name says.
export function kindWords(child) {
  if (isFolder(child)) return texts.folder.folder;
  const [, ending] = /.\.([A-Za-z0-9]{1,5})$/.exec(child.name) ?? [];
  return ending ? texts.folder.ending(ending.toUpperCase()) : texts.folder.document;
}

function byKind(one, other) {
  if (isFolder(one) !== isFolder(other)) return isFolder(one) ? -1 : 1;
  return reading.compare(kindWords(one), kindWords(other));
}

const VALUES = {
  when: (one) => one?.when ?? one?.before, size: (one) => one?.size,
  who: (one, people) => (one?.who === undefined ? undefined : fullName(people, one.who)),
};
export const isKnown = (by) => Object.hasOwn(VALUES, by);

// The newest and the largest first.
const isFromMost = (by) => by === 'when' || by === 'size';
export const isFalling = (by, down) => isFromMost(by) !== down;

// What isn't known comes last, in either direction.
function byKnown(by, turn, { known, people }) {
  const value = ({ name }) => VALUES[by](known.get(name), people);
  const compare = (one, other) => (isFromMost(by) ? other - one : reading.compare(one, other));
  return (one, other) => {
    const [first, second] = [value(one), value(other)];
    const lacks = Number(first === undefined) - Number(second === undefined);
    if (lacks !== 0 || first === undefined) return lacks || byName(one, other);
    return turn * compare(first, second) || byName(one, other);
  };
}

// By 'name' folders come first in either direction, as people expect. 'told' is what is known of
// them, and who people are.
export function sorted(children, by = 'name', down = false, told = null) {
  const turn = down ? -1 : 1;
  if (told !== null && isKnown(by)) return [...children].sort(byKnown(by, turn, told));
  const order = by === 'kind'
    ? (one, other) => turn * byKind(one, other) || byName(one, other)
    : (one, other) => Number(isFolder(other)) - Number(isFolder(one)) || turn * byName(one, other);
  return [...children].sort(order);
}

// So that capitals and marks don't matter, nor how a letter is written. The door looks for names by
// the same rule (services/rooms_services/door/folders/find.py).
export const folded = (text) => text.normalize('NFKD').replace(/\p{M}/gu, '').toUpperCase()
  .toLowerCase().replaceAll('ς', 'σ');

export function filtered(children, filter) {
  const wanted = folded(filter.trim());
  return children.filter(({ name }) => folded(name).includes(wanted));
}
