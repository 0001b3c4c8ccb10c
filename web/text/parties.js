// Those of whom the program was asked, in words.

import { texts } from '../language/language.js';
import { fullName } from '../net/directory.js';
import { isolated } from './words.js';

const UNREAD = { 'OWNER@': texts.who.unknownOwner, 'GROUP@': texts.who.unknownGroup };

// 'known' is what people() says.
export function partyName({ user, groups, owns, isExact }, known) {
  if (owns) return UNREAD[owns];
  if (user !== null) {
    const name = isolated(fullName(known, user));
    return isExact || groups.length === 0 ? name : texts.who.ifIn(name, groups.map(isolated));
  }
  if (groups.length === 0) return isExact ? texts.who.others : texts.who.signingIn;
  return groups.length === 1 ? texts.who.group(groups[0])
    : texts.who.inGroups(groups.map(isolated));
}
