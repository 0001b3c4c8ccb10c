// A list that is written by hand in the page's Advanced, against what came of it: whether I lose
// the list, and who may then remove the object, or what others made in it: {unsaid, wrong}.

import { namesIn } from './said.mjs';
import { GROUPS } from './trees.mjs';
import { REAL } from './worlds.mjs';

const INSIDE = new RegExp('^(.*) may (?:then remove, rename and move away what others made in this '
  + 'folder|put documents here, and no entry says who may remove)');
const ITSELF = /^(.*) may then remove, rename and move away this (?:folder|document) itself\.$/;
const SURELY = /^After this you may no longer (change|see) this list/;

const namedBy = (warnings, pattern) => warnings.flatMap((text) => pattern.exec(text)?.[1] ?? []);

// Whether an entry lets a caller remove something in folders that may come there, or put something
// into these, by which they remove what is there: there may be none of which a review could say so.
function reachesFolders(sent, { user, groups, world }) {
  const all = world === REAL ? Object.keys(GROUPS).filter((one) => GROUPS[one].includes(user))
    : groups;
  return sent.split('\n').slice(1).map((line) => line.split(':')).some(([type, flags, who, mask]) =>
    type === 'A' && flags.includes('d') && /[dDw]/.test(mask)
      && (who.endsWith('@') || (flags.includes('g') ? all.includes(who) : who === user)));
}

// 'callers' are others than me, and 'all' are those whom a sentence may name too; 'covers(names,
// caller)' says whether its names mean one, and 'mine' is me. 'paths' are what lies below.
export function judgeWritten({ path, kind, warnings, loss, sent },
  { callers, all, covers, mine, paths, before, after }) {
  const found = { unsaid: [], wrong: [], compared: 2 * callers.length, differ: 0 };
  const gains = (caller, one) => !before.at(one, caller).removes && after.at(one, caller).removes;
  const manages = (caller) => after.at(path, caller).letters.includes('C');
  const told = (what, names, of, isSo) => {
    for (const caller of callers) {
      if (!gains(caller, of) || manages(caller)) continue;
      found.differ += 1;
      if (!names.some((one) => covers(one, caller))) {
        found.unsaid.push(`${caller.name} ${caller.groups} may remove ${what} ${path}`);
      }
    }
    const isOf = (one) => one === mine.user || /^\d+ others?$/.test(one)
      || all.some((caller) => covers(one, caller) && isSo(caller));
    for (const one of names.flatMap(namesIn).filter((some) => !isOf(some))) {
      found.wrong.push(`${one} can’t remove ${what} ${path}`);
    }
  };
  const removes = (caller) => (one) => after.at(one, caller).removes;
  if (kind === 'folder') {
    told('what is in', namedBy(warnings, INSIDE), `${path}/other`, (caller) =>
      reachesFolders(sent, caller) || paths.some(removes(caller)));
  }
  told('', namedBy(warnings, ITSELF), path, (caller) => gains(caller, path));
  const [had, has] = [before, after].map((state) => state.at(path, mine).letters);
  const lost = [...'Cc'].filter((letter) => had.includes(letter) && !has.includes(letter));
  found.differ += lost.length;
  if (lost.length > 0 && loss === null) found.unsaid.push(`I lose ${lost} at ${path}`);
  const said = SURELY.exec(loss ?? '')?.[1];
  if (said && has.includes(said === 'change' ? 'C' : 'c')) found.wrong.push(`${loss} at ${path}`);
  return found;
}
