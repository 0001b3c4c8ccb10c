// A search from a folder on that also looks at what was given to me below it in folders that don't
// show it, as far as the last night knows of that.

import { nameOf } from '../net/api.js';
import { mine } from '../net/directory.js';
import { findBelow, searchBelow } from '../net/door.js';
import { filtered } from './sorting.js';

// So many places are looked at by themselves, and of texts so many documents shown.
const MOST = 4;
export const MOST_SHOWN = 50;

const isIn = (path, folder) => path.startsWith(folder === '/' ? '/' : `${folder}/`);

// The outermost of them.
async function givenBelow(top) {
  const places = ((await mine())?.places ?? []).filter(({ path, rights }) =>
    isIn(path, top) && rights.includes('r'));
  return places.filter(({ path }) => !places.some((one) => isIn(path, one.path)));
}

// What was taken away since that night isn't there for me.
const elseIfGone = (nothing) => (fault) => {
  if (fault.status !== 403 && fault.status !== 404) throw fault;
  return nothing;
};

const eachOnce = (found) => [...new Map(found.map((one) => [one.path, one])).values()];
const allOf = (told, given) => given.length <= MOST && told.every(({ all }) => all);

// As findBelow.
export async function findAll(top, text) {
  const [first, given] = await Promise.all([findBelow(top, text), givenBelow(top)]);
  const folders = given.filter(({ kind }) => kind === 'folder');
  const told = [first, ...await Promise.all(folders.slice(0, MOST).map(({ path }) =>
    findBelow(path, text).catch(elseIfGone({ found: [], all: true, unlisted: [] }))))];
  const fit = filtered(given.map((one) => ({ ...one, name: nameOf(one.path) })), text);
  return { all: allOf(told, folders), unlisted: told.flatMap(({ unlisted }) => unlisted),
    found: eachOnce([...first.found, ...fit, ...told.slice(1).flatMap(({ found }) => found)]) };
}

// As searchBelow, and one after the other, since each takes a while.
export async function searchAll(top, words) {
  const [first, given] = await Promise.all([searchBelow(top, words), givenBelow(top)]);
  const told = [first];
  for (const { path } of given.slice(0, MOST)) {
    told.push(await searchBelow(path, words).catch(elseIfGone({ ...first, found: [], all: true,
      unread: 0, without: 0 })));
  }
  const sum = (name) => told.reduce((count, one) => count + one[name], 0);
  const found = eachOnce(told.flatMap((one) => one.found)).sort((one, other) =>
    other.count - one.count || (one.path < other.path ? -1 : 1));
  return { ...first, unread: sum('unread'), without: sum('without'),
    found: found.slice(0, MOST_SHOWN), all: allOf(told, given) && found.length <= MOST_SHOWN };
}
