// What an object is, where one may not read everything about it.

import * as api from './api.js';

const none = (fault) => ({ fault });

// By its attributes, by the listing of its parent, or by its own listing.
export async function kindOf(path) {
  if (path === '/') return 'folder';
  const attributes = await api.readAttributes(path).catch(none);
  if (attributes.kind) return attributes.kind;
  if (attributes.fault.status !== 403) throw attributes.fault;
  const beside = await api.list(api.parentOf(path)).catch(() => []);
  const found = beside.find((child) => child.name === api.nameOf(path));
  if (found) return found.kind;
  const inside = await api.list(path).catch(none);
  return inside.fault?.body?.why === 'wrong-kind' ? 'document' : 'folder';
}
