// Sends a document so that nothing is replaced unseen: the door takes it only if nothing is there,
// or what was seen.

import * as api from '../net/api.js';
import { removeLeft, tagAt } from '../net/door.js';
import { noteTag, tagGivenOut } from '../net/given_out.js';
import { putDocument } from '../net/in_pieces.js';
import { isUnanswered } from '../net/retry.js';
import { freeBeside } from './replacing.js';

const NEW = { 'If-None-Match': '*' };
// Of what may not be read it is only known that it is there.
const only = (tag) => ({ 'If-Match': tag ?? '*' });

// The tag of what is there now, or null.
export const tagNow = (path) => tagAt(path).catch((fault) => {
  if (isUnanswered(fault)) throw fault;
  return null;
});

// The tag of what somebody who uploads a document saw of it: what this browser gave out last, or
// else what is there when they are asked.
export const tagSeen = async (path) => await tagGivenOut(path) ?? tagNow(path);

// Whether the room has what was sent, as where the answer to it was lost.
export async function hasSame({ path, file }) {
  const [got, sent] = await Promise.all([api.read(path), file]
    .map(async (blob) => new Uint8Array(await (await blob).arrayBuffer())));
  return got.length === sent.length && got.every((byte, at) => byte === sent[at]);
}

// An upload of that name was broken off, as by a room that ended. Its parts are no document.
const isLeftOver = ({ status, body }) => status === 409 && body?.why === 'left-over';
const mayGo = async ({ name, path }, ask) =>
  await ask({ name, path, why: 'left', who: null }) === 'replace';

// Sends {name, path, file, seen}. 'isThere' says that something is there which may be replaced, of
// which the tag 'seen' was seen. 'ask' says what is to be done where it isn't that any more; to
// keep both changes the path. Returns whether it was made by that, or null if all was left as it
// was.
export async function putSafely(job, isThere, ask, onProgress, signal = null) {
  let fields = isThere ? only(job.seen) : NEW;
  for (;;) {
    try {
      const { made, tag } = await putDocument(job.path, job.file, fields, onProgress,
        signal);
      await noteTag(job.path, tag);
      return made;
    } catch (fault) {
      if (isLeftOver(fault) && await mayGo(job, ask)) {
        await removeLeft(job.path);
        continue;
      }
      if (fault.status !== 412) throw fault;
      const { why, who, tag } = fault.body;
      if (await hasSame(job).catch(() => false)) return why === 'exists';
      // What is there while they are asked.
      const seen = tag ?? (why === 'gone' ? null : await tagNow(job.path));
      const answer = await ask({ name: job.name, path: job.path, why, who });
      if (answer === 'leave') return null;
      if (answer === 'both') {
        job.path = await freeBeside(job.path);
        fields = NEW;
      } else fields = why === 'gone' ? NEW : only(seen);
    }
  }
}
