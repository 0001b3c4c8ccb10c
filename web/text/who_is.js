// People and groups in words: their names, and who is in a group.

import { texts } from '../language/language.js';
import { fullName } from '../net/directory.js';
import { marked } from './invisible.js';
import { isolated } from './words.js';

export const isSpecial = (who) => Object.hasOwn(texts.names.special, who);

export function whoName(known, who, isGroup) {
  if (isSpecial(who)) return texts.names.special[who];
  return isGroup ? who : fullName(known, who);
}

// The name by which a control is heard. Of two people with one name the login is said too.
export function spokenName(known, { who, isGroup }) {
  const name = whoName(known, who, isGroup);
  const isShared = !isGroup && known !== null
    && known.users.filter((user) => fullName(known, user) === name).length > 1;
  return marked(isShared ? `${name} (${who})` : name);
}

// The members of a group, or null where they aren't known.
export const membersOf = (known, group) => (
  known?.members && Object.hasOwn(known.groups, group) ? known.groups[group] : null);

// The first of these, and how many more there are.
export function shortened(names, most = 4) {
  const rest = names.length - most;
  return rest > 1 ? [...names.slice(0, most), texts.lists.others(rest)] : names;
}

// 'bob', 'the 5 members of sales' for a sentence.
export function inSentence(known, { who, isGroup }) {
  if (isSpecial(who)) return texts.names.inSentence[who];
  if (!isGroup) return isolated(fullName(known, who));
  const members = membersOf(known, who);
  return members === null ? texts.names.membersOf(isolated(who))
    : texts.names.countedMembers(members.length, isolated(who));
}

export function personWords(known, who, me) {
  return [
    who === me ? texts.names.you : null, fullName(known, who) === who ? null : who,
    known && !known.users.includes(who) ? texts.names.cannotSignIn : null,
  ].filter(Boolean).join(', ');
}

export function groupWords(known, who, members) {
  if (members === null) {
    return known && !Object.hasOwn(known.groups, who) ? texts.names.emptyGroup
      : texts.names.unknownMembers;
  }
  return members.length === 0 ? texts.names.noMembers
    : texts.lists.and(members.map((user) => isolated(fullName(known, user))));
}
