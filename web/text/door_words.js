// What the door refuses, in sentences.

import { texts } from '../language/language.js';

// The sentence for a refusal of the door, or for its fault where nothing was to be changed; null
// where it is another one.
export function doorWords({ status, body, asked }) {
  if (body === null) {
    return asked?.isOfDoor && asked.method === 'GET' && [500, 502, 504].includes(status)
      ? texts.faults.doorAway : null;
  }
  return [412, 413, 429, 502, 503].includes(status) && Object.hasOwn(texts.faults.ofDoor, body.why)
    ? texts.faults.ofDoor[body.why] : null;
}
