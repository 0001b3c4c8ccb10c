// What can't be seen of what lies further down, in words.

import { texts } from '../language/language.js';
import { isolated } from './words.js';
import { shortened } from './who_is.js';

const nameOf = ({ path, count }) => {
  const place = texts.places.quoted(isolated(path));
  return count === 0 ? place : texts.access.documentsIn(count, place);
};

// The first of them, [{path, count}] as seenBelow has them, and how many there are beside these.
export const unreadNames = (unread, most) => shortened(unread.map(nameOf), most);
