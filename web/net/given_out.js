// Which bytes this browser got of a document, by the door's tags: so an upload of it can say that
// somebody changed it since.

import { whoAmI } from './api.js';

const MOST = 200;
// Several rooms may have the same origin, and several users the same browser.
const keyFor = (me) => `rooms given out ${location.pathname} ${me}`;
let me = null;
const mine = () => (me ??= whoAmI().catch(() => ''));

function stored(user) {
  try {
    const found = JSON.parse(localStorage.getItem(keyFor(user)) ?? '[]');
    return new Map(found.filter((one) => Array.isArray(one) && one.length === 2));
  } catch {
    return new Map();
  }
}

// The browser may keep nothing.
const seen = new Map();

export async function noteTag(path, tag) {
  seen.set(path, tag);
  const user = await mine();
  const all = stored(user);
  all.delete(path);
  try {
    localStorage.setItem(keyFor(user), JSON.stringify([...all, [path, tag]].slice(-MOST)));
  } catch {
    // It is known for this visit.
  }
}

// The tag of what was given out last, or null.
export const tagGivenOut = async (path) => seen.get(path) ?? stored(await mine()).get(path) ?? null;

export function forgetTags(user) {
  seen.clear();
  try {
    localStorage.removeItem(keyFor(user));
  } catch {
    // There is nothing.
  }
}
