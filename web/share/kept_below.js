// Those who may remove by a new list, and can't further down, where a line keeps things in place.

import { isKeep, letRemove, readLevels } from '../acl/levels.js';
import { isInherited, printList } from '../acl/entries.js';
import { mayChange } from './passage.js';
import { subjectsOf } from './subjects.js';

// More places than these aren't offered, since each takes a request.
const MOST_PLACES = 50;

const isRemover = ({ level }) => level === 'remove' || level === 'manage';

// The places where those whom a change is about can't remove what others made, though they then may
// above, from below: {steps: [{path, before, next}], others: [path]}. The steps let them, and the
// others' lists I may not change. 'places' lie below, with their lists as they are then.
export async function keptFrom(state, places, subject) {
  const subjects = subjectsOf(subject).filter((one) => isRemover(one) && !one.isLeaving);
  const isTheirs = (row) => subjects.some(({ who, isGroup }) =>
    row.who === who && row.isGroup === isGroup);
  const hasLine = ({ kind, list }) => kind === 'folder'
    && list.entries.some((entry) => isKeep(entry) && !isInherited(entry));
  const found = subjects.length === 0 ? []
    : places.filter(hasLine).flatMap(({ path, list }) => {
      const rows = readLevels(list, 'folder').rows.filter((row) => row.inherited && row.barred
        && isTheirs(row));
      return rows.length === 0 ? []
        : [{ path, before: printList(list), next: letRemove(list, rows), isAdded: true }];
    });
  const may = await Promise.all(found.map(({ path }, index) =>
    index < MOST_PLACES && mayChange(state, path)));
  return { steps: found.filter((_, index) => may[index]).reverse(),
    others: found.filter((_, index) => !may[index]).map(({ path }) => path) };
}
