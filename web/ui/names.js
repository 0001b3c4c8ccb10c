// People and groups in a row: a mark, and what stands below a name.

import { texts } from '../language/language.js';
import { element, icon, nameText } from './dom.js';
import { fullName } from '../net/directory.js';
import { isolated } from '../text/words.js';
import { groupWords, isSpecial, membersOf, personWords } from '../text/who_is.js';

// So many are named without being asked for.
const FEW = 3;

export function mark(known, who, isGroup) {
  if (isSpecial(who) || isGroup) return element('span', { class: 'mark-of group' }, icon('people'));
  return element('span', { class: 'mark-of', 'aria-hidden': 'true' },
    [...fullName(known, who)][0].toUpperCase());
}

const memberLine = (known, user, me) => element('li', {}, mark(known, user, false),
  nameText(fullName(known, user)),
  user === me ? element('span', { class: 'hint' }, texts.names.you) : null);

function unfolded(known, members, me) {
  const first = members.slice(0, 2).map((user) => isolated(fullName(known, user)));
  return element('details', { class: 'members' },
    element('summary', {}, texts.names.unfolded(members.length, first)),
    element('ul', {}, members.map((user) => memberLine(known, user, me))));
}

// What stands below a name in a row. 'from' says where it comes from.
export function below(known, { who, isGroup }, me, from = []) {
  const isAlone = from.length === 0;
  const line = (words) => (words === '' && isAlone ? null
    : element('p', { class: 'hint' }, words, words === '' || isAlone ? '' : ', ', from));
  if (isSpecial(who)) return [line('')].filter(Boolean);
  if (!isGroup) return [line(personWords(known, who, me))].filter(Boolean);
  const members = membersOf(known, who);
  if (members === null || members.length <= FEW) return [line(groupWords(known, who, members))];
  return [line(''), unfolded(known, members, me)].filter(Boolean);
}
