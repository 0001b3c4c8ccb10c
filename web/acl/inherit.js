// What is passed down, and what a list becomes by a request, by the rules of docs/access-lists.md.

import { isInherited, orderFlags, printEntry } from './entries.js';

function flagsBelow(flags, kind) {
  const has = (flag) => flags.includes(flag);
  const kept = [...flags].filter((flag) => 'SFg'.includes(flag)).join('') + 'I';
  if (kind === 'document') return has('f') ? orderFlags(kept) : null;
  if (has('d')) return orderFlags(has('n') ? kept : `${kept}d${has('f') ? 'f' : ''}`);
  return has('f') && !has('n') ? orderFlags(`${kept}fi`) : null;
}

// What a child of this kind inherits from a folder's full list.
export function passedDown(entries, kind) {
  return entries.flatMap((entry) => {
    const flags = flagsBelow(entry.flags, kind);
    return flags === null ? [] : [{ ...entry, flags }];
  });
}

const textOf = (entries) => entries.map(printEntry).join('\n');
const ownOf = (entries) => entries.filter((entry) => !isInherited(entry));

// The full list after 'sent' was set in the place of 'before': {entries, known}. 'above' is the
// list of the folder above: null at the top of the room, and undefined where it can't be read. If
// it then isn't known what will be inherited, these are the own entries, which come first.
export function afterSending(sent, before, above, kind) {
  const own = ownOf(sent.entries);
  const kept = sent.entries.filter(isInherited);
  const linked = !sent.protect && above !== null && above?.auto !== false;
  if (!linked) return { entries: [...own, ...kept], known: true };
  if (above) return { entries: [...own, ...passedDown(above.entries, kind)], known: true };
  const stays = !before.protect && textOf(kept) === textOf(before.entries.filter(isInherited));
  return { entries: stays ? [...own, ...kept] : own, known: stays };
}

// The full list of an object in a folder with the list 'above': once it is moved there, or once
// that list has changed. Null is a list that can't be read.
export function afterMoving(list, above, kind) {
  if (list.protect || above === null || !above.auto) return list.entries;
  return [...ownOf(list.entries), ...passedDown(above.entries, kind)];
}

// Whether an object has something in its list that doesn't come from the folder above.
export const isException = ({ list, kind }) => list !== null && (list.protect
  || (kind === 'folder' && !list.auto) || list.entries.some((entry) => !isInherited(entry)));

// An object that somebody else made in a folder whose group is this one.
export const ofOthers = (group) => ({ owner: '', group });

// The lists below a folder as they are once its own is this one, as far as they can be read: path
// to list. 'nodes' come from the top down.
export function listsThen(nodes, path, list) {
  const found = new Map([[path, list]]);
  for (const node of nodes) {
    const above = found.get(node.path.slice(0, node.path.lastIndexOf('/')) || '/');
    if (above !== undefined && node.list !== null) {
      found.set(node.path, { ...node.list, entries: afterMoving(node.list, above, node.kind) });
    }
  }
  return found;
}
