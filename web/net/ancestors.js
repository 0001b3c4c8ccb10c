// The lists around an object, as far as they may be read.

import * as api from './api.js';
import { differsBelow } from './door.js';
import { seenBelow } from './seen_below.js';
import { readListText } from '../acl/entries.js';

const UNKNOWN = { owner: null, group: null };

// Only a denial says that something may not be read. Whatever else fails is told as what it is.
const ifDenied = (nothing) => (fault) => {
  if (fault.status !== 403) throw fault;
  return nothing;
};

const textAt = (path) => api.readList('dacl', path).catch(ifDenied(null));
const readOf = (text) => (text === null ? null : readListText(text).list ?? null);

// The dacl of an object, or null where it may not be read.
export const listAt = (path) => textAt(path).then(readOf);

export const attributesAt = (path) => api.readAttributes(path).catch(ifDenied(UNKNOWN));

// Where it isn't told, only a list of a folder passes something on.
const kindBy = (text) => (/^[ADUL]:[^:]*[fdni]/m.test(text ?? '') ? 'folder' : 'document');

// An object as a question has it. Its list is null where it may not be read.
export async function objectAt(path, kind = null) {
  const [text, object] = await Promise.all([textAt(path), attributesAt(path)]);
  return { path, kind: kind ?? object.kind ?? kindBy(text), text, object };
}

// The folders on the way to a path as {path, text, list, object}, from the top down, or only the
// last of them. Text and list are null where they may not be read.
export async function foldersAbove(path, whole) {
  const names = api.namesOf(path);
  const paths = names.map((_, index) => `/${names.slice(0, index).join('/')}`);
  return Promise.all(paths.slice(whole ? 0 : -1).map(async (each) => {
    const [text, object] = await Promise.all([textAt(each), attributesAt(each)]);
    return { path: each, text, list: readOf(text), object };
  }));
}

// Those that aren't in another one of them.
const outermost = (folders) => folders.filter(({ path }) =>
  !folders.some((one) => path.startsWith(`${one.path}/`)));

// The protected folders below this one, as it is said by the door: {found: [{path, list}], all,
// fault}. 'all' is false where there may be more, and 'fault' says why none could be looked for.
// What lies in a protected folder has its list, so nothing is looked for there.
export async function protectedBelow(path) {
  try {
    const told = await differsBelow(path);
    const folders = seenBelow(told).nodes.filter(({ kind }) => kind === 'folder');
    const all = told.unlisted.length === 0 && folders.every(({ list }) => list !== null);
    return { all, fault: null, found: outermost(folders.filter(({ list }) => list?.protect)) };
  } catch (fault) {
    return { all: false, fault, found: [] };
  }
}
