// A question to the program, of what the page has read: docs/would.md has its form. Nothing is
// decided here, and nothing is added that wasn't read.
//
//   questionOf(objects, changes, asked, { lists })   the text
//
// An object is {path, kind, text, object: {owner, group}}. 'text' is its list, FOLLOWS where it
// only follows its folder, or null where it may not be read; so are owner and group. OF_EACH as
// owner is each caller, and as group one in which is whoever may be in a group; '' is somebody
// else. A folder comes before what is in it; the first is '/'. A change is {set: path, text},
// {move: path, to}, {come: path, kind, text, object} or {look: path}. 'asked' is what partiesFor
// says. UNNAMED stands before the name of what has no name here.

import { freeName } from './callers.js';
import { printList } from './entries.js';

export const FOLLOWS = 'follows';
const UNREAD = 'unread';
export const OF_EACH = '=';
const OF_NOBODY = '?';
// No name of an object begins so.
export const UNNAMED = '\u0000';

const at = (folder, name) => `${folder === '/' ? '' : folder}/${UNNAMED}${name}`;
// What is imagined in a folder, by how it is asked for: a document and a folder of somebody else,
// another document in that folder, and one that each caller made here.
export const imagined = (path) => ({ other: at(path, 'd'), folder: at(path, 'f'),
  deep: at(at(path, 'f'), 'd'), own: at(path, 'o') });

// The same as objects of a question.
export function imaginedIn({ path, object: { group } }) {
  const paths = imagined(path);
  const one = (name, kind, owner) => (
    { path: paths[name], kind, text: FOLLOWS, object: { owner, group } });
  return [one('other', 'document', ''), one('folder', 'folder', ''), one('deep', 'document', ''),
    one('own', 'document', OF_EACH)];
}

// In the place of a list on the way that may not be read: it hinders nobody here, gets nothing from
// above, and passes nothing on: what lies there keeps what it has. That it isn't known has to be
// told.
export const OPEN = 'list:p\nA::EVERYONE@:x\n';

// Lists by themselves, as those of objects that everybody gets to: [{name, kind, list, object}] as
// objects of a question, of which 'alone' says the paths.
export const alone = (name) => at('/', name);
export const keptAlone = ({ entries }) => printList({ auto: true, protect: true, entries });
export const objectsAlone = (those) => [
  { path: '/', kind: 'folder', text: OPEN, object: { owner: '', group: '' } },
  ...those.map(({ name, kind, list, object }) => (
    { path: alone(name), kind, text: keptAlone(list), object }))];

// The text of a list as lines of a question, or the word in its place.
const bodyOf = (text) => (text ?? UNREAD).replace(/^#(?!:)/gm, '#:').replace(/\n$/, '');

const groupOfEach = ({ free }) => `${free}each`;
// Whoever may be in it: where members are known, those of any group that is asked about.
const mayBeIn = ({ user, groups, owns, isExact }) => (isExact ? groups.length > 0
  : !owns && (user !== null || groups.length > 0));

// Who is in which group: {pairs, sets}.
function membersIn(asked, objects) {
  if (!objects.some(({ object: { group } }) => group === OF_EACH)) return asked;
  const those = asked.all.filter(mayBeIn);
  const keys = new Set(those.map(({ key }) => key));
  const each = groupOfEach(asked);
  return { pairs: [...asked.pairs, ...those.filter(({ key, user }) => key === user)
    .map(({ user }) => [each, user])],
  sets: asked.sets.map((one) => (keys.has(one.label)
    ? { ...one, groups: [...one.groups, each] } : one)) };
}

// Whose it is, where that can't be read and a list asks for it.
const nobodyOf = (asked) => ({ each: groupOfEach(asked), ...Object.fromEntries(
  asked.all.filter(({ owns }) => owns).map(({ owns, key }) => [owns, key])) });

function headOf({ kind, path, object: { owner, group } }, nobody, sign = '') {
  const [of, within] = [owner, group === OF_EACH ? nobody.each : group].map((one, place) => {
    if (one === '') return OF_NOBODY;
    return one ?? nobody[['OWNER@', 'GROUP@'][place]] ?? OF_NOBODY;
  });
  return `${kind}${sign} ${of} ${within} ${path}`;
}

function changeLines(change, nobody) {
  if (change.set) return [`set ${change.set}`, bodyOf(change.text)];
  if (change.move) return [`move ${change.move}`, `to ${change.to}`];
  if (change.come) {
    return [headOf({ ...change, path: change.come }, nobody, '+'), bodyOf(change.text)];
  }
  return [`look ${change.look}`];
}

// How names begin here that are none: no name of these paths does.
export const markFor = (paths) => freeName('~', paths.flatMap((path) => path.split('/')));

export function questionOf(objects, changes, asked, { lists = false, mark = '~' } = {}) {
  const { pairs, sets } = membersIn(asked, objects);
  const nobody = nobodyOf(asked);
  const lines = [
    ...pairs.map(([group, user]) => `member ${group} ${user}`),
    ...sets.map(({ label, user, groups }) => `as ${label} ${user} ${groups.join(',')}`),
    ...objects.flatMap((one) => [headOf(one, nobody), bodyOf(one.text)]),
    ...changes.flatMap((one) => changeLines(one, nobody)), ...lists ? ['lists'] : []];
  return `${lines.join('\n')}\n`.replaceAll(UNNAMED, mark);
}
