// Documents that are sent so that nothing is replaced unseen. A large one goes to the door in
// pieces (docs/large.md), so that who loses the line goes on where they were.

import { Refusal, STOPPED, putOnce } from './api.js';
import { ask, untilDoorAnswers } from './door.js';
import { DOCUMENT_OF_ROOM } from './large.js';

const PIECE = DOCUMENT_OF_ROOM;
// How often it is begun anew, as where the door was started anew or needed the place for others.
const TRIES = 3;

// What the door has of files, by its number for each.
const begun = new WeakMap();

// The door has nothing of it any more.
const isOver = ({ status, body }) => (status === 404 && body?.why === 'no-upload')
  || (status === 408 && body?.why === 'too-slow');

// What is said of a piece is told of all of it.
const of = (path, asked) => asked.catch((fault) => {
  if (fault.asked) fault.asked.path = path;
  throw fault;
});

async function begin(path, bytes, fields) {
  const { told } = await untilDoorAnswers(() => ask('POST', 'upload', path, 'json',
    `?${bytes.size}`, { headers: fields }));
  begun.set(bytes, told.upload);
  return { upload: told.upload, here: new Set() };
}

// What the door has by now of one that was begun, or null.
async function goOn(path, bytes) {
  const upload = begun.get(bytes);
  if (upload === undefined) return null;
  try {
    const { told } = await of(path, untilDoorAnswers(() =>
      ask('GET', 'pieces', `/${upload}`, 'json')));
    return { upload, here: new Set(told.here) };
  } catch (fault) {
    if (!isOver(fault)) throw fault;
    return null;
  }
}

const pieceOf = (bytes, number) => bytes.slice((number - 1) * PIECE, number * PIECE);

async function sendPieces(path, bytes, { upload, here }, onProgress, signal) {
  const numbers = Array.from({ length: Math.ceil(bytes.size / PIECE) }, (_, index) => index + 1);
  let sent = [...here].reduce((sum, number) => sum + pieceOf(bytes, number).size, 0);
  for (const number of numbers.filter((one) => !here.has(one))) {
    if (signal?.aborted) throw new Refusal(STOPPED, null, { method: 'PUT', word: 'doc', path });
    const piece = pieceOf(bytes, number);
    const onSome = (some) => onProgress(sent + Math.min(some, piece.size), bytes.size);
    await of(path, untilDoorAnswers(() =>
      putOnce('door/pieces', `/${upload}/${number}`, piece, {}, onSome, signal)));
    sent += piece.size;
  }
}

async function putPieces(path, bytes, fields, onProgress, signal) {
  const at = await goOn(path, bytes) ?? await begin(path, bytes, fields);
  await sendPieces(path, bytes, at, onProgress, signal);
  const done = await untilDoorAnswers(() => putOnce('door/doc', path, new Blob([]),
    { ...fields, 'Room-Upload': at.upload }, () => {}, signal));
  begun.delete(bytes);
  return done;
}

async function putLarge(path, bytes, fields, onProgress, signal) {
  for (let tries = TRIES; ; tries -= 1) {
    try {
      return await putPieces(path, bytes, fields, onProgress, signal);
    } catch (fault) {
      if (!isOver(fault)) throw fault;
      begun.delete(bytes);
      if (tries === 0) throw new Refusal(503, { why: 'busy' }, fault.asked);
    }
  }
}

// Sent only if 'fields', a condition, hold; otherwise it is refused with 412. What can't take so
// many bytes is refused before they are sent. Returns {made, tag}.
export const putDocument = (path, bytes, fields, onProgress = () => {}, signal = null) =>
  (bytes.size > DOCUMENT_OF_ROOM ? putLarge(path, bytes, fields, onProgress, signal)
    : untilDoorAnswers(() => putOnce('door/doc', path, bytes, fields, onProgress, signal)));

// The door needn't keep what it has of files that aren't sent after all.
export function forgetPieces(files) {
  for (const upload of files.map((file) => begun.get(file)).filter(Boolean)) {
    ask('DELETE', 'pieces', `/${upload}`, 'text').catch(() => {});
  }
}
