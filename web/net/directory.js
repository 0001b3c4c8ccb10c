// Names that the front end has beside the room: who there is (/people), what I was given further
// down (/mine), and the places that this browser remembers. Nothing is decided by them: without
// them the page only knows less.

import { parentOf, whoAmI } from './api.js';
import { isName } from '../acl/entries.js';
import { texts } from '../language/language.js';

const OLD = 36 * 3600 * 1000;
const MOST_REMEMBERED = 12;

const isObject = (value) => typeof value === 'object' && value !== null && !Array.isArray(value);
const isText = (value) => typeof value === 'string';
const listIn = (value) => (Array.isArray(value) ? value : []);
const namesIn = (value) => listIn(value).filter((one) => isText(one) && isName(one));
const pairsOf = (value) => (isObject(value) ? Object.entries(value) : []);

// The file at this address: what it says, null where there is none that can be read, and undefined
// where there is no answer now.
async function fileAt(address) {
  const reply = await fetch(address, { cache: 'no-cache' }).catch(() => null);
  if (reply === null || reply.status >= 500) return undefined;
  if (!reply.ok || !reply.headers.get('Content-Type')?.includes('json')) return null;
  const found = await reply.json().catch(() => null);
  return isObject(found) ? found : null;
}

// Asks once, and again only as long as there is no answer.
function once(address, take) {
  let asked = null;
  return () => {
    asked ??= fileAt(address).then((found) => {
      if (found === undefined) asked = null;
      return found ? take(found) : null;
    });
    return asked;
  };
}

function peopleIn(found) {
  if (!Array.isArray(found.users)) return null;
  const groups = pairsOf(found.groups).filter(([name]) => isName(name));
  const names = pairsOf(found.names).filter(([, full]) => isText(full) && full !== '');
  return {
    made: found.made, members: found.members === true, users: namesIn(found.users),
    groups: Object.fromEntries(groups.map(([name, users]) => [name, namesIn(users)])),
    names: Object.fromEntries(names),
  };
}

const isPlace = (one) => isObject(one) && isText(one.path) && one.path.startsWith('/')
  && isText(one.rights) && (one.kind === 'folder' || one.kind === 'document');

// A file that says it is another user's is nobody's here.
async function mineIn(found) {
  if (!Array.isArray(found.places)) return null;
  if (found.user !== undefined && found.user !== await whoAmI().catch(() => '')) return null;
  return {
    made: found.made, managers: namesIn(found.managers), places: found.places.filter(isPlace),
  };
}

// {users, groups: {NAME: [USER]}, names: {USER: FULL NAME}, made, members}, or null. 'members' says
// whether the groups have their users.
export const people = once('people', peopleIn);

// {made, managers: [USER], places: [{path, kind, rights}]}, or null.
export const mine = once('mine', mineIn);

// The full name of a user, where it is known, and the name itself otherwise.
export const fullName = (known, user) =>
  (known && Object.hasOwn(known.names, user) ? known.names[user] : user);

const timeOf = (made) => (isText(made) ? Date.parse(made) : NaN);

// Whether this is older than a night and a day, or of an unknown day.
export const isOld = (made) => !(Date.now() - timeOf(made) <= OLD);

export const dayWords = (made) => (Number.isNaN(timeOf(made)) ? texts.lists.unknownDay
  : texts.lists.day(new Date(made)));

// Several rooms may have the same origin, and several users the same browser.
const keyFor = (me) => `rooms places ${location.pathname} ${me}`;

// What was opened by its address, the latest first: [{path, kind}].
export function remembered(me) {
  try {
    const found = JSON.parse(localStorage.getItem(keyFor(me)) ?? '[]');
    return Array.isArray(found) ? found.filter((one) => isPlace({ rights: '', ...one })) : [];
  } catch {
    return [];
  }
}

function remember(me, path, kind) {
  const rest = remembered(me).filter((one) => one.path !== path);
  try {
    localStorage.setItem(keyFor(me),
      JSON.stringify([{ path, kind }, ...rest].slice(0, MOST_REMEMBERED)));
  } catch {
    // The browser keeps nothing.
  }
}

// A place was shown. Unless it was seen in its folder, somebody came to it by its address.
const shown = new Set();
export async function arrived(path, kind) {
  if (kind === 'folder') shown.add(path);
  if (path === '/' || shown.has(parentOf(path))) return;
  const me = await whoAmI().catch(() => '');
  if (me !== '') remember(me, path, kind);
}

export function forget(me) {
  try {
    localStorage.removeItem(keyFor(me));
  } catch {
    // The browser keeps nothing.
  }
}
