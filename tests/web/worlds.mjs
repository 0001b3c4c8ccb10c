// For whom dialogs are judged. Mode 'm' is that of a user who can look up members: there each user
// has the groups of trees.mjs. In mode 'n' whoever is in which groups is supposed, of up to three.
//
// A caller is {user, name, groups, world}: a user of the room, or null for any other name.
import { namesIn } from './said.mjs';
import { GROUPS, USERS } from './trees.mjs';

// Of one no members are known.
const NAMES = [...Object.keys(GROUPS), 'office'];
export const groupsOf = (mode) => (mode === 'm' ? Object.keys(GROUPS) : NAMES);
// They own something, and no group has them.
export const OTHERS = ['root', 'mallory'];
// Whoever may be in which groups, of one who has no name in particular.
const SOMEBODY = 'somebody';
const WORLDS = NAMES.reduce((all, one) => [...all, ...all.map((some) => [...some, one])], [[]])
  .filter(({ length }) => length <= 3);
export const REAL = 'real';
export const keyOf = (groups) => [...groups].sort().join('+');

const groupsIn = (world) => Object.fromEntries(world.map((one) =>
  [one, [...USERS, ...OTHERS, SOMEBODY]]));

// The members of each world that a mode is judged by, by its key.
const real = [REAL, GROUPS];
export const MEMBERS = { m: new Map([real]),
  n: new Map([...WORLDS.map((world) => [keyOf(world), groupsIn(world)]), real]) };

const PEOPLE = { made: new Date().toISOString(), users: USERS, names: {} };
// What the directory says to a user of a mode.
export const DIRECTORY = { m: { ...PEOPLE, members: true, groups: GROUPS },
  n: { ...PEOPLE, members: false,
    groups: Object.fromEntries(Object.keys(GROUPS).map((one) => [one, []])) } };

// The name by which a review of a world has the rows of a caller.
export const rowName = ({ user, world }) => user ?? (world === '' ? '*' : SOMEBODY);

export const EVERYONE = ['everyone who signs in', 'everyone else who signs in'];

export const callersIn = (mode, users) => (mode === 'm'
  ? [...users].map((user) => ({ user, name: user, groups: [], world: REAL }))
    .concat({ user: null, name: EVERYONE[1], groups: [], world: REAL })
  : WORLDS.flatMap((groups) => [...users, null].map((user) => (
    { user, name: user ?? EVERYONE[0], groups, world: keyOf(groups) }))));

// Those who aren't known.
export const UNREAD = ['the owning group', 'whoever owns it'];

// Whom a name in a line means: {user, groups}, or null.
function meaning(name) {
  if (EVERYONE.includes(name.toLowerCase())) return { user: null, groups: [] };
  const some = /^(?:whoever is in (.*)|(\w+) \(if in (.*)\))$/i.exec(name);
  if (some) {
    return { user: some[2] ?? null, groups: (some[1] ?? some[3]).split(/, | and (?:in )?/) };
  }
  const group = /^the group (\w+)$/i.exec(name);
  if (group) return { user: null, groups: [group[1]] };
  return /^\w+$/.test(name) ? { user: name, groups: [] } : null;
}

const meanings = new Map();
export function meantBy(name) {
  if (!meanings.has(name)) meanings.set(name, meaning(name));
  return meanings.get(name);
}

const isCaller = (meant, caller) => (meant.user === null || meant.user === caller.user)
  && meant.groups.every((one) => caller.groups.includes(one));
const isRest = (caller, isNamed) => caller.user === null || !isNamed(caller);

// Whether what is said of a name holds of a caller.
export function coversIn(claims, mode) {
  const named = new Set(claims.flatMap(({ names }) => names));
  const isNamed = ({ name }) => named.has(name);
  return (name, caller) => {
    const meant = meantBy(name);
    if (meant === null) return false;
    if (mode === 'n') return isCaller(meant, caller);
    return meant.user === null ? isRest(caller, isNamed) : meant.user === caller.user;
  };
}

// Whether the names of a sentence mean a caller, also where it only counts some. 'all' are those of
// each sentence.
export function coversNames(all, mode) {
  const named = new Set(all.flatMap((names) => names.match(/\w+/g) ?? []));
  const isNamed = ({ user }) => named.has(user);
  return (names, caller) => namesIn(names).some((name) => {
    const meant = meantBy(name);
    if (meant === null) return /^\d+ others?$/.test(name);
    if (mode === 'n') return isCaller(meant, caller);
    return meant.user === null ? isRest(caller, isNamed) : meant.user === caller.user;
  });
}
