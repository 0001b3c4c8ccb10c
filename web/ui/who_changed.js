// Who could have changed what isn't any more as it was seen.

import { fullName, people } from '../net/directory.js';
import { whoAmI } from '../net/api.js';
import { texts } from '../language/language.js';
import { shortened } from '../text/who_is.js';
import { isolated } from '../text/words.js';

const MOST = 4;

const wordsOf = (name, known) => {
  if (name.startsWith('g:')) return texts.who.group(isolated(name.slice(2)));
  if (Object.hasOwn(texts.who.special, name)) return texts.who.special[name];
  return isolated(fullName(known, name));
};

// A sentence. 'who' are names as the door has them: users, groups as g:NAME, special ones; or null
// where the caller may not know it. Nothing is said where the door couldn't tell.
export async function whoCould(who) {
  if (who === undefined) return '';
  if (who === null) return texts.changed.unknown;
  const [known, me] = await Promise.all([people(), whoAmI().catch(() => '')]);
  const others = who.filter((name) => name !== me);
  return others.length === 0 ? texts.changed.above
    : texts.changed.could(shortened(others.map((name) => wordsOf(name, known)), MOST));
}
