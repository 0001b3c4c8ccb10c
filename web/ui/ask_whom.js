// Whom to ask for access, as far as it can be known.

import { attributesAt, listAt } from '../net/ancestors.js';
import { inForce } from '../acl/decide.js';
import { isGroup } from '../acl/entries.js';
import { texts } from '../language/language.js';
import { fullName, mine, people } from '../net/directory.js';
import { membersOf, shortened } from '../text/who_is.js';
import { isolated } from '../text/words.js';

const MOST_NAMED = 3;

// Those whom the entry means, as far as they are known by name.
function usersOf(entry, owner, known) {
  if (entry.who === 'OWNER@') return owner ? [owner] : [];
  if (entry.who.endsWith('@')) return [];
  return isGroup(entry) ? membersOf(known, entry.who) ?? [] : [entry.who];
}

// A sentence that names whoever manages the object at a path: by its list, by what the front end
// knows of the top, or by its owner, who need not have a right. It only helps with a fault that is
// told, so it is there whatever else fails.
export async function askedFor(path) {
  const [list, { owner }, known, given] = await Promise.all([listAt(path).catch(() => null),
    attributesAt(path).catch(() => ({ owner: null })), people(), mine()]);
  const shown = (users) =>
    shortened(users.map((user) => isolated(fullName(known, user))), MOST_NAMED);
  const managing = inForce(list?.entries ?? [], 'C').filter(({ type }) => type === 'A')
    .flatMap((entry) => usersOf(entry, owner, known));
  if (managing.length > 0) return texts.ask.changing(shown([...new Set(managing)]));
  const managers = given?.managers ?? [];
  const isTop = path === '/' || !owner;
  if (managers.length > 0 && isTop) return texts.ask.managing(shown(managers));
  return owner ? texts.ask.owning(shown([owner])) : texts.ask.administrator;
}
