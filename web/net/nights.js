// Earlier nights of the room (docs/earlier.md): what was there, as far as that night's list and
// today's let the caller see it.

import { target } from './addresses.js';
import { Refusal, jsonOrNull, take } from './api.js';
import { withoutParts } from './large.js';
import { replyTo } from './sent_first.js';

// Whether the room shows any: null as long as nobody asked.
let isShown = null;
export const hasNights = () => isShown === true;

// Asks once in a visit. Nobody is woken up by that.
export async function knowNights() {
  if (isShown !== null) return;
  const reply = await replyTo('earlier/').catch(() => null);
  if (reply && reply.status < 500) isShown = reply.status === 204;
}

// A fault says what was asked for as today's room would.
const then = (form, night, word, path) => take(form, `earlier/${night}/${word}`, path)
  .catch((fault) => {
    if (fault.asked) fault.asked.word = word;
    throw fault;
  });

// {gone, nights: [{at, night}]}, the newest first; 'gone' says who sees what isn't there any more.
// It is asked once: the room does without it.
export async function nightsKept() {
  const asked = { method: 'GET', word: 'earlier', path: '/nights' };
  const reply = await fetch('earlier/nights', { cache: 'no-store' }).catch(() => null);
  const told = reply && jsonOrNull(await reply.text().catch(() => ''));
  if (!reply?.ok || !told) throw new Refusal(reply?.status ?? 0, told, asked);
  return told;
}
export const folderThen = async (night, path) =>
  withoutParts(await then('json', night, 'folder', path));
export const documentThen = (night, path) => then('blob', night, 'doc', path);
export const listThen = (night, path) => then('text', night, 'dacl', path);

// How the last part of a ZIP begins, of so many bytes.
const [END, LENGTH] = ['PK\u0005\u0006', 22];

// A folder with all that was in it as one ZIP. It isn't asked for again by itself; one that was
// broken off has no end.
export async function zipThen(night, path, signal) {
  const asked = { method: 'GET', word: 'folder', path };
  const lost = () => { throw new Refusal(0, null, asked); };
  const reply = await fetch(target(`earlier/${night}/zip`, path), { cache: 'no-store', signal })
    .catch(lost);
  if (!reply.ok) {
    throw new Refusal(reply.status, jsonOrNull(await reply.text().catch(() => '')), asked);
  }
  const blob = await reply.blob().catch(lost);
  const end = await blob.slice(-LENGTH).text();
  return end.startsWith(END) ? blob : lost();
}
