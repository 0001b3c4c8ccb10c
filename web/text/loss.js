// Whether I lose a list by a change, as the program answered it, and the sentences about that.

import { BEFORE } from '../acl/answer.js';
import { inForce } from '../acl/decide.js';
import { isGroup, printEntry } from '../acl/entries.js';
import { texts } from '../language/language.js';
import { isolated } from './words.js';

// By which groups it depends whether I keep it: those that would lose it to me if I do by myself,
// or else those by which I do.
function dependsOn(keeping, losing) {
  const isAlone = keeping.some(({ groups }) => groups.length === 0);
  const sets = isAlone ? losing : keeping;
  const fewest = Math.min(...sets.map(({ groups }) => groups.length));
  return [...new Set(sets.filter(({ groups }) => groups.length === fewest)
    .flatMap(({ groups }) => groups))];
}

// An entry that denies it to me by name or to all, before any other that could rule it.
function denying(entries, letter, me) {
  const [first] = inForce(entries, letter);
  return first?.type === 'D' && (first.who === 'EVERYONE@' || first.who === 'AUTHENTICATED@'
    || (first.who === me && !isGroup(first))) ? first : null;
}

// Whether I may lose this right, C or c: null, or {letter, answer, depends, isAboveUnknown, entry,
// isNobody}.
function loss(letter, said, path, { me, after }) {
  const has = (caller, side) => said.at(path, caller, side)?.mask.includes(letter) === true;
  const mine = said.callers.filter(({ user }) => user === me);
  const now = mine.filter((one) => has(one, BEFORE));
  // In which groups I am isn't always known; those count by which I have it now.
  const could = now.length > 0 ? now : mine;
  const keeping = could.filter((one) => has(one));
  if (keeping.length === could.length) return null;
  const losing = could.filter((one) => !keeping.includes(one));
  return { letter, answer: keeping.length > 0 || !after.known ? 'perhaps' : 'no',
    depends: keeping.length > 0 ? dependsOn(keeping, losing) : [], isAboveUnknown: !after.known,
    entry: denying(after.entries, letter, me), isNobody: !said.callers.some((one) => has(one)) };
}

// Whether I lose the list by this: its change, or else its sight. 'after' is what afterSending
// says.
export const lossOf = (...words) => loss('C', ...words) ?? loss('c', ...words);

// Which list I may lose is said in the words of these two.
const THIS_LIST = [texts.warnings.losesList, texts.warnings.perhapsLosesList];
export const WHO_HAS_ACCESS = [texts.warnings.losesAccess, texts.warnings.perhapsLosesAccess];

// The same in words: {title, text}. 'call' says how the list is called there.
export function lossWords({ letter, answer, depends, isAboveUnknown, entry, isNobody },
  call = THIS_LIST) {
  const [surely, perhaps] = call;
  if (answer !== 'no') {
    const { above, group } = texts.warnings.depends;
    return { title: perhaps[letter], text: texts.warnings.notSurely(letter,
      [...depends.map(group), ...isAboveUnknown ? [above] : []]) };
  }
  const why = (isNobody ? texts.warnings.letsNobody : texts.warnings.letsYouNot)(letter);
  return { title: surely[letter],
    text: entry ? texts.warnings.deniesYou(letter, isolated(printEntry(entry))) : why };
}
