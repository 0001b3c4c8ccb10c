// What the door says of all that lies below a folder, as the objects that are looked at there. What
// only follows a folder stands for all that are alike: nobody sees its name, and 'count' says how
// many there are.

import { join, parentOf } from './api.js';
import { readListText } from '../acl/entries.js';
import { ofOthers, passedDown } from '../acl/inherit.js';
import { FOLLOWS, UNNAMED } from '../acl/question.js';

// Many have the same list.
function readingLists() {
  const known = new Map();
  return (text) => {
    if (text === null) return null;
    if (!known.has(text)) known.set(text, readListText(text).list ?? null);
    return known.get(text);
  };
}

const follows = (list, kind) => (list === null ? null
  : { auto: true, protect: false, entries: passedDown(list.entries, kind) });

// {nodes: [{path, kind, text, list, object, count}], unread: [{path, count}]}, 'text' as a question
// has it. Of 'unread', 'count' is 0 for the object itself, or says how many documents in it have
// lists that can't be read.
export function seenBelow(told) {
  const read = readingLists();
  const lists = new Map([[told.at, read(told.list)]]);
  const nodes = [];
  const add = (path, kind, list, object, count, text = FOLLOWS) => {
    nodes.push({ path, kind, text, list, object, count });
    if (kind === 'folder') lists.set(path, list);
  };
  for (const { path, kind, list, owner, group } of told.objects) {
    add(path, kind, read(list), { owner, group }, 1, list);
  }
  // The list of a folder. One that isn't named follows the one above, and whose it is says nothing.
  const listAt = (path) => {
    if (!lists.has(path)) {
      add(path, 'folder', follows(listAt(parentOf(path)), 'folder'), ofOthers(''), 0);
    }
    return lists.get(path);
  };
  for (const { path } of told.objects) listAt(parentOf(path));
  for (const [at, { below, kind, depth, owner, group, count }] of told.rest.entries()) {
    const folder = depth === 1 ? below : join(below, UNNAMED);
    add(join(folder, `${UNNAMED}${at}`), kind, follows(listAt(folder), kind), { owner, group },
      count);
  }
  const itself = (path) => ({ path, count: 0 });
  const unread = told.objects.filter(({ list }) => list === null).map(({ path }) => itself(path));
  return { nodes, unread: [...told.unlisted.map(itself), ...unread,
    ...told.unread.map((one) => ({ path: one.in, count: one.count }))] };
}
