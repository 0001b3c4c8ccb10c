// Those who are added by a list that is written by hand and can't get here, against what came of
// it: {unsaid, wrong}.
import { namesIn } from './said.mjs';
import { GROUPS } from './trees.mjs';
import { meantBy } from './worlds.mjs';

const PLACE = '(?:here|to what is in this folder)';
const SURE = new RegExp(`^(.*) can’t get ${PLACE}: .* doesn’t let .* pass through \\(x\\)\\.$`);
const OF_SOME = new RegExp(`^Not everyone in (the group \\w+) can get ${PLACE}: .* doesn’t let `
  + '(.*) pass through \\(x\\)\\.$');
const OF_ALL = new RegExp(`^Not (everyone) can get ${PLACE}: `);
const UNREAD = new RegExp(`^It isn’t known whether (.*) can get ${PLACE}: you may not read `);
const DEPENDS = new RegExp(`^It isn’t known whether (.*) can get ${PLACE}: at `);
const EVERYONE = ['EVERYONE@', 'AUTHENTICATED@'];

function entriesIn(text) {
  const all = text.trimEnd().split('\n').slice(1).map((line) => line.split(':'));
  return all.map(([type, flags, who, mask]) => ({ type, flags, who, mask, key: `${who} ${
    flags.includes('g')}` })).filter(({ type, mask }) => type === 'A' && mask !== '');
}

// The entries that give something to those to whom none gave anything, one of each.
function addedIn(sent, base) {
  const known = new Set(entriesIn(base).map(({ key }) => key));
  return [...new Map(entriesIn(sent).reverse().filter(({ key }) => !known.has(key))
    .map((one) => [one.key, one])).values()];
}

// {name, callers} of those whom an entry means.
function meantIn({ who, flags }, { owner, group }, callers, mode) {
  if (EVERYONE.includes(who)) {
    return { name: 'everyone',
      callers: callers.filter(({ user, groups }) => user === null && groups.length === 0) };
  }
  const name = { 'OWNER@': owner, 'GROUP@': group }[who] ?? who;
  if (!flags.includes('g') && who !== 'GROUP@') {
    return { name, callers: callers.filter(({ user }) => user === name) };
  }
  const isMember = ({ user, groups }) => (mode === 'm' ? GROUPS[name]?.includes(user) ?? false
    : user === null && groups.includes(name));
  return { name: `the group ${name}`, callers: callers.filter(isMember) };
}

const isNamed = (name, said) => name.toLowerCase() === said.toLowerCase()
  && (name === 'everyone' || meantBy(said) !== null);

// The sentences about a name, by how sure they are.
function saidOf(warnings, name) {
  const told = (pattern) => warnings.find((text) => isNamed(name, pattern.exec(text)?.[1] ?? ''));
  return { sure: told(SURE) ?? told(OF_ALL), some: told(OF_SOME), unread: told(UNREAD),
    depends: told(DEPENDS) };
}

// 'way' are the folders that lead here, 'isKnown' says whether I can read their lists and whose the
// object is, and 'callers' are all whom it is judged for.
export function judgePassage({ path, kind, warnings, sent, base },
  { mode, object, callers, way, isKnown, after }) {
  const found = { unsaid: [], wrong: [] };
  for (const entry of addedIn(sent, base)) {
    const meant = meantIn(entry, object, callers, mode);
    const places = [...way, ...kind === 'folder' && /[fd]/.test(entry.flags) ? [path] : []];
    const stopped = meant.callers.filter((caller) =>
      places.some((place) => !after.at(place, caller).letters.includes('x')));
    const { sure, some, unread, depends } = saidOf(warnings, meant.name);
    const [isAny, isAll] = [stopped.length > 0, stopped.length === meant.callers.length];
    if (isAny && isKnown && !sure && !some && !unread && !depends) {
      found.unsaid.push(`${meant.name} can’t get to ${path}`);
    }
    if (sure && meant.callers.length > 0 && !isAll) found.wrong.push(`isn’t so: ${sure}`);
    const named = some ? namesIn(OF_SOME.exec(some)[2]) : [];
    if (named.some((name) => stopped.every(({ user }) => user !== name && !/^\d/.test(name)))) {
      found.wrong.push(`isn’t so: ${some}`);
    }
    if (unread && isKnown) found.wrong.push(`it can be read: ${unread}`);
    if (depends && (mode === 'm' || (isKnown && !isAny))) found.wrong.push(`isn’t so: ${depends}`);
  }
  return found;
}
