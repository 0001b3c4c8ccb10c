// Requests for the folder that is opened first, sent before the rest of the page is there.

import { target, whereIs } from './addresses.js';
import { paced } from './paced.js';

// What it is asked of a folder that the caller may do there.
export const ASKED = 'rxwaDtcCo';
/** @type {RequestInit} */
const GIVEN = { cache: 'no-store' };
const NONE = new Map();

function targetsOf({ path, view }) {
  return view !== null ? [] : [`${target('can', path)}?${ASKED}`, target('door/folder', path),
    target('folder', path), 'earlier/'];
}

// The replies by their targets.
export function sendFirst(hash) {
  const sent = new Map(targetsOf(whereIs(hash)).map((where) => [where, fetch(where, GIVEN)]));
  // Whoever takes a reply hears of its fault.
  for (const reply of sent.values()) reply.catch(() => {});
  return sent;
}

let sent = NONE;

// Does something whose first requests were sent already, and takes their replies.
export function withSent(replies, does) {
  sent = replies;
  const done = does();
  sent = NONE;
  return done;
}

// As fetch does it, and not more of a kind at once than nginx lets through.
export const replyTo = (where, given = GIVEN) =>
  sent.get(where) ?? paced(where, () => fetch(where, given));
