// For whom it is asked what a change brings about, from what the page has read. Nothing is decided
// here, and nothing is added that wasn't read.
//
//   const names = namesIn(lists, objects);        whom the lists mean
//   const asked = partiesFor(names, known, me);   'known' is what people() says, or null
//
// 'asked' is {pairs, sets, all, isExact, most}: lines of a question, and the callers by the name
// that their rows have. A caller is {key, user, groups}, 'user' null for one of no name in
// particular, and 'owns' is OWNER@ or GROUP@ for whoever that is where it can't be read. Where
// members are known ('isExact') each user is a caller, with the groups that count; else one for
// each user, and for up to 'most' groups together, alone and with each user. Of these 'isPerhaps'
// says that nobody may be so: several groups, or a user in one. 'id' is of one caller alone.

import { isGroup } from './entries.js';

// Most sets that one question has.
const MOST_SETS = 1000;
const MOST_PAIRS = 20000;

// Whoever has a name that nothing names.
export const ANY_OTHER = '*';
// Those who aren't known because whose an object is can't be read.
export const OWNERS = ['OWNER@', 'GROUP@'];

// {users, groups, unread}: whom these lists name, as sets, and which of OWNERS they mean of an
// object of which that can't be read. 'objects' are {owner, group}.
export function namesIn(lists, objects) {
  const [users, groups, specials] = [new Set(), new Set(), new Set()];
  for (const { who, ...entry } of new Set(lists.flatMap(({ entries }) => entries))) {
    // What grants and denies nothing is about nobody.
    if (entry.mask === '') continue;
    if (who.endsWith('@')) specials.add(who);
    else (isGroup({ who, ...entry }) ? groups : users).add(who);
  }
  const owners = objects.map(({ owner }) => owner);
  const owning = objects.map(({ group }) => group);
  if (specials.has('OWNER@')) addAll(users, owners);
  if (specials.has('GROUP@')) addAll(groups, owning);
  const unread = OWNERS.filter((who, at) =>
    specials.has(who) && [owners, owning][at].includes(null));
  return { users, groups, unread };
}

function addAll(names, those) {
  for (const one of those) if (one !== null && one !== '' && one !== '=') names.add(one);
}

// Sets of one up to so many of these.
function setsOf(groups, most) {
  const found = groups.map((one) => [one]);
  for (let at = 0; at < found.length; at += 1) {
    const last = groups.indexOf(found[at].at(-1));
    if (found[at].length < most) {
      found.push(...groups.slice(last + 1).map((one) => [...found[at], one]));
    }
  }
  return found;
}

// How many that are, without making them.
const countOf = (count, most) => [count, (count * (count - 1)) / 2,
  (count * (count - 1) * (count - 2)) / 6].slice(0, most).reduce((sum, one) => sum + one, 0);

// How many groups together can be asked for, and whether with each user too.
function sizeFor(users, groups, most) {
  const sizes = [[3, true], [2, true], [1, true], [1, false]].filter(([size]) => size <= most);
  return sizes.find(([size, isNamed]) =>
    countOf(groups, size) * (isNamed ? users + 1 : 1) <= MOST_SETS) ?? [0, false];
}

// A name that nobody has.
export function freeName(start, names) {
  let free = start;
  while ([...names].some((one) => one.startsWith(free))) free += start.at(-1);
  return free;
}

const exact = ({ groups: named }, { groups }) => Object.entries(groups)
  .filter(([group]) => named.has(group))
  .flatMap(([group, users]) => users.map((user) => [group, user]));

// Those of whom is said who is in which group.
function knownCallers(names, known, pairs) {
  const groups = new Map();
  for (const [group, user] of pairs) groups.set(user, [...groups.get(user) ?? [], group]);
  return [...new Set([...names.users, ...groups.keys(), ...known.users])].sort()
    .map((user) => ({ user, groups: groups.get(user) ?? [], isPerhaps: false,
      key: names.users.has(user) || groups.has(user) ? user : ANY_OTHER }));
}

const others = { key: ANY_OTHER, user: null, groups: [], isPerhaps: false };

// 'most' is how many groups are asked for together: less where a question is too large.
export function partiesFor(names, known, me = '', most = 3) {
  const { all, ...asked } = callersOf(names, known, me, most);
  const { isExact } = asked;
  return { ...asked,
    all: all.map((one) => ({ ...one, isExact, id: `${one.key} ${one.user}` })) };
}

function callersOf(names, known, me, most) {
  const users = new Set([...names.users, ...me === '' ? [] : [me]]);
  const free = freeName('+', [...users, ...known?.users ?? []]);
  const unread = names.unread.map((owns) => (
    { key: `${free}${owns.slice(0, -1)}`, user: null, groups: [], owns, isPerhaps: true }));
  const isOwning = ({ owns }) => owns === 'GROUP@';
  const ofUnread = unread.filter(isOwning).map(({ key }) => (
    { label: key, user: ANY_OTHER, groups: [key] }));
  const pairs = known?.members === true ? exact(names, known) : [];
  if (known?.members === true && pairs.length <= MOST_PAIRS) {
    const all = knownCallers({ ...names, users }, known, pairs);
    const alone = me === '' || names.users.has(me) || pairs.some(([, user]) => user === me)
      ? [] : [{ label: `${free}me`, user: me, groups: [`${free}none`] }];
    const keyed = alone.length === 0 ? all
      : all.map((one) => (one.user === me ? { ...one, key: alone[0].label } : one));
    return { pairs, sets: [...alone, ...ofUnread], all: [...keyed, ...unread, others],
      isExact: true, most: 3, free };
  }
  const [size, isNamed] = sizeFor(users.size, names.groups.size, most);
  const sets = setsOf(size === 0 ? [] : [...names.groups].sort(), size);
  const asked = [null, ...isNamed ? [...users].sort() : []].flatMap((user) =>
    sets.map((groups) => ({ user, groups })))
    .map((one, at) => ({ ...one, key: `${free}${at}`,
      isPerhaps: one.user !== null || one.groups.length > 1 }));
  const alone = [...users].sort().map((user, at) => (names.users.has(user) ? { user, key: user }
    : { user, key: `${free}u${at}` })).map((one) => ({ ...one, groups: [], isPerhaps: false }));
  const labels = [...alone.filter(({ key, user }) => key !== user), ...asked]
    .map(({ key, user, groups }) => ({ label: key, user: user ?? ANY_OTHER,
      groups: groups.length > 0 ? groups : [`${free}none`] }));
  return { pairs: [], sets: [...labels, ...ofUnread], all: [...alone, ...asked, ...unread, others],
    isExact: false, most: size, free };
}

// Whether what is said of one is said of the other too, who is that and more.
const isPartOf = (one, whole) => one !== whole && !one.owns
  && (one.user === null || one.user === whole.user)
  && one.groups.every((group) => whole.groups.includes(group));

// What is said of everybody else isn't said of each of them.
export function shared(found) {
  const all = found.find(({ caller }) => caller.key === ANY_OTHER && caller.user === null);
  return all === undefined ? found
    : found.filter((one) => one === all || [...one.says].some((word) => !all.says.has(word)));
}

// Those of whom is to be told, of [{caller, says}] with what is said of each as a set of words:
// without those who may be and of whom nothing is said but what is said of their parts.
export const toTell = (found) => found.filter(({ caller, says }) => {
  if (!caller.isPerhaps) return true;
  const parts = found.filter((one) => isPartOf(one.caller, caller));
  return ![...says].every((one) => parts.some((part) => part.says.has(one)));
});
