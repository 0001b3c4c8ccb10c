// What was there on an earlier night, beside what is there now. Nothing here draws or changes.

import * as api from '../net/api.js';
import { documentThen, folderThen } from '../net/nights.js';

// {kind} of each name in a folder now, or null where that isn't known.
async function namesNow(path) {
  try {
    return new Map((await api.list(path)).map(({ name, kind }) => [name, kind]));
  } catch (fault) {
    if (fault.status === 404 || fault.status === 409) return new Map();
    if (fault.status === 403) return null;
    throw fault;
  }
}

// The kind of what is at a path now, null where nothing is, undefined where that isn't known.
export async function kindNow(path) {
  try {
    await api.list(path);
    return 'folder';
  } catch (fault) {
    if (fault.status === 404) return null;
    if (fault.status === 409) return 'document';
    if (fault.status === 403) return undefined;
    throw fault;
  }
}

// The rows of a folder: {name, kind, now}, where 'kind' is that of then, or null for what came
// later, and 'now' the kind now, null where it is gone, and undefined where that isn't known.
export async function bothOf(night, path) {
  const [then, now] = await Promise.all([folderThen(night, path), namesNow(path)]);
  const rows = then.map(({ name, kind }) =>
    ({ name, kind, now: now === null ? undefined : now.get(name) ?? null }));
  const known = new Set(then.map(({ name }) => name));
  const later = [...now ?? []].filter(([name]) => !known.has(name))
    .map(([name, kind]) => ({ name, kind: null, now: kind }));
  return [...rows, ...later];
}

// An object of then and all that was below it, a folder before what is in it, as {path, kind,
// isThere}. What is there now in its place may be of another kind, and then it counts as there.
// 'unseen' gets the folders that the caller couldn't list that night, or can't now.
export async function allThen(night, { path, kind, now }, unseen) {
  const here = { path, kind, isThere: now !== null };
  if (kind !== 'folder') return [here];
  try {
    const rows = now === null
      ? (await folderThen(night, path)).map((one) => ({ ...one, now: null }))
      : await bothOf(night, path);
    const found = [here];
    for (const row of rows.filter((one) => one.kind !== null)) {
      found.push(...await allThen(night, { ...row, path: api.join(path, row.name) }, unseen));
    }
    return found;
  } catch (fault) {
    if (fault.status !== 403) throw fault;
    unseen.push(path);
    return [here];
  }
}

const bytesOf = async (blob) => new Uint8Array(await (await blob).arrayBuffer());
export const bytesThen = (night, path) => bytesOf(documentThen(night, path));

// Whether a document is the same now: null where it is gone, undefined where it can't be read.
export async function isSameNow(then, path) {
  try {
    const now = await bytesOf(api.read(path));
    return now.length === then.length && now.every((byte, at) => byte === then[at]);
  } catch (fault) {
    if (fault.status === 404 || fault.status === 409) return null;
    if (fault.status === 403) return undefined;
    throw fault;
  }
}

// The folders on the way to a path that aren't there now, from the top down.
export async function missingAbove(path) {
  const missing = [];
  for (let at = api.parentOf(path); at !== '/'; at = api.parentOf(at)) {
    if (await api.isThere(at)) break;
    missing.unshift({ path: at, kind: 'folder', isThere: false });
  }
  return missing;
}
