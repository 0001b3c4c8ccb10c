// The requests of docs/http.md and their replies, as promises. Nothing here draws the page.

import { target } from './addresses.js';
import { heard } from './clock.js';
import { hearMost, withoutParts } from './large.js';
import { untilAnswered } from './retry.js';
import { replyTo } from './sent_first.js';

// The status of a file that this computer can't read any more.
export const UNREADABLE = -1;
// The status of what its user stopped.
export const STOPPED = -2;

// A reply that isn't 2xx. Status 0 is no reply at all. 'body' is the reply's JSON, or null, and
// 'asked' says what was asked for: {method, word, path}.
export class Refusal extends Error {
  constructor(status, body, asked) {
    super(`status ${status}`);
    Object.assign(this, { status, body, asked });
  }
}

export function namesOf(path) {
  return path === '/' ? [] : path.split('/').slice(1);
}

export function join(folder, name) {
  return folder === '/' ? `/${name}` : `${folder}/${name}`;
}

export function parentOf(path) {
  return path.slice(0, path.lastIndexOf('/')) || '/';
}

export function nameOf(path) {
  return path.slice(path.lastIndexOf('/') + 1);
}

export function jsonOrNull(text) {
  try {
    return JSON.parse(text);
  } catch {
    return null;
  }
}

async function askOnce(method, word, path, body, query = '') {
  const asked = { method, word: word.replace('door/', ''), path };
  const where = word === 'me' ? 'me' : target(word, path) + query;
  let reply;
  try {
    reply = await replyTo(where, { method, body, cache: 'no-store' });
  } catch {
    throw new Refusal(0, null, asked);
  }
  if (!reply.ok) {
    const told = jsonOrNull(await reply.text().catch(() => ''));
    const fault = new Refusal(reply.status, told, asked);
    if (word.startsWith('door/')) fromDoor(fault);
    throw fault;
  }
  return reply;
}

// The door says that the room is away where nginx would say that there is no answer. A fault says
// that it is the door's.
/** @returns {never} */
export function fromDoor(fault) {
  if (fault.asked) fault.asked.isOfDoor = true;
  const isAway = fault.status === 503 && Boolean(fault.body?.why);
  throw isAway ? Object.assign(fault, { status: 502 }) : fault;
}

// What adds to a document would add twice, if only the answer was lost.
const ask = (method, word, path, body) => (method === 'POST' && word === 'doc'
  ? askOnce(method, word, path, body) : untilAnswered(() => askOnce(method, word, path, body)));

// Reads, and takes the reply in a form that fetch has. It may be cut off.
export const take = (form, word, path, query) => untilAnswered(async () => {
  const reply = await askOnce('GET', word, path, undefined, query);
  return reply[form]().catch(() => { throw new Refusal(0, null, { method: 'GET', word, path }); });
});

// The name, and whether its password is a first one, which opens nothing until it is changed.
export async function me() {
  const { headers } = await ask('GET', 'me', '/');
  heard(headers.get('Room-Time'));
  hearMost(headers.get('Room-Largest'));
  return { user: headers.get('Room-User') ?? '', isFirst: headers.has('Room-First') };
}

export const whoAmI = async () => (await me()).user;

// The door knows which documents are in parts, and does with all of them what is asked.
export const read = (path) => take('blob', 'door/doc', path);
export const list = async (path) => withoutParts(await take('json', 'folder', path));

// What was sent several times may have been done by the first. 'isDone' looks at what the last one
// got.
async function onceDone(asked, isDone) {
  try {
    await asked;
  } catch (fault) {
    if (!fault.repeated || !(await isDone(fault))) throw fault;
  }
}

const isGone = (path) => ({ status, body }) => status === 404 && body?.at === path;

export const makeFolder = (path) =>
  onceDone(ask('POST', 'folder', path), ({ body }) => body?.why === 'exists');
export const remove = (path) => onceDone(ask('DELETE', 'door/object', path), isGone(path));
export const move = (path, to) => onceDone(ask('POST', 'door/move', path, JSON.stringify({ to })),
  async (fault) => isGone(path)(fault) && isThere(to));
export const readList = (which, path) => take('text', which, path);
export const readAttributes = (path) => take('json', 'attr', path);
export const setOwners = (path, owner, group) =>
  ask('PUT', 'door/attr', path, JSON.stringify({ group, owner }));

// The ruling of each letter: {r: {ruling: 'allowed', place: 2}, w: {ruling: 'silent', place:
// null}}.
export async function can(path, letters) {
  const rulings = await take('json', 'can', path, `?${letters}`);
  return Object.fromEntries(Object.entries(rulings).map(([letter, text]) => {
    const [ruling, place] = text.split(' ');
    return [letter, { ruling, place: place === undefined ? null : Number(place) }];
  }));
}

// Asking for no rights shows whether something exists, if the caller may pass through the folders
// above.
export async function isThere(path) {
  try {
    await can(path, '');
    return true;
  } catch (fault) {
    if (fault.status === 404) return false;
    throw fault;
  }
}

// XMLHttpRequest, since fetch doesn't report an upload's progress. Resolves to whether it was made,
// and to the tag that the door says.
export function putOnce(word, path, bytes, fields, onProgress, signal = null) {
  return new Promise((resolve, reject) => {
    const asking = new XMLHttpRequest();
    const asked = { method: 'PUT', word: 'doc', path };
    asking.open('PUT', target(word, path));
    for (const [name, value] of Object.entries(fields)) asking.setRequestHeader(name, value);
    asking.upload.onprogress = (event) => onProgress(event.loaded, event.total);
    // A file that was changed or removed since it was chosen fails as a lost connection does. One
    // that was gone at once has no size, and so no first byte that couldn't be read.
    asking.onerror = async () => {
      const some = bytes.size === 0 ? bytes : bytes.slice(0, 1);
      const isRead = await some.arrayBuffer().then(() => true, () => false);
      reject(new Refusal(isRead ? 0 : UNREADABLE, null, asked));
    };
    asking.onabort = () => reject(new Refusal(STOPPED, null, asked));
    signal?.addEventListener('abort', () => asking.abort());
    asking.onload = () => {
      if (asking.status >= 200 && asking.status < 300) {
        resolve({ made: asking.status === 201, tag: asking.getResponseHeader('ETag') });
      } else reject(new Refusal(asking.status, jsonOrNull(asking.responseText), asked));
    };
    asking.send(bytes);
  });
}
