// Faults of earlier nights in words, and how something that is removed comes back.

import { texts } from '../language/language.js';

export const timeOf = ({ at }) => new Date(at * 1000);

// A fault of an earlier night as a sentence, or null where it is one of today's room.
export function nightFault({ status, body }) {
  const why = body?.why ?? '';
  if (Object.hasOwn(texts.earlier.why, why)) return texts.earlier.why[why];
  if (status === 403 && body?.bits) return texts.earlier.notOpen;
  return status === 404 ? texts.earlier.notThere : null;
}

// How something that is removed comes back, or null where it doesn't.
export function wayBack(nights) {
  const last = nights?.nights?.[0];
  if (!last) return null;
  if (nights.gone === 'owners') return texts.earlier.backByOwners(timeOf(last));
  return nights.gone === 'members' ? texts.earlier.backByMembers(timeOf(last)) : null;
}
