// For whom web asks what comes of a change, how large its questions are, and what two rows of the
// answer are as a level: node callers.mjs PAGE
// The last line is 'N tried, M faults'.
import { resolve } from 'node:path';
import { pathToFileURL } from 'node:url';

const [page] = process.argv.slice(2);
const module = (name) => import(`${pathToFileURL(resolve(page)).href}/${name}`);
const [{ partiesFor, namesIn, toTell }, { levelOf }, { printList, readListText }, { foresee },
  { markFor, questionOf }] = await Promise.all(
  ['callers.js', 'answer.js', 'entries.js', 'would.js', 'question.js'].map(module));

const faults = [];
let count = 0;
function same(what, is, wanted) {
  count += 1;
  const [one, other] = [is, wanted].map((value) => JSON.stringify(value));
  if (one !== other) faults.push(`${what}: ${one}, not ${other}`);
}
const listOf = (...lines) => readListText(['list:a', ...lines, ''].join('\n')).list;
const NOBODY = [{ owner: 'olga', group: 'office' }];
const labels = ({ sets }) => sets.map(({ user, groups }) => `${user} ${groups.join(',')}`);

// Who counts: whom lists name that grant or deny something, and owners where a list means them.
const plain = namesIn([listOf('A:fd:bob:r', 'A:fdg:staff:rx', 'D::EVERYONE@:d',
  'A:g:until.2027-01-01.read.u.bob@alice:')], NOBODY);
same('users', [...plain.users], ['bob']);
same('groups', [...plain.groups], ['staff']);
const owned = namesIn([listOf('A:fi:OWNER@:d', 'A::GROUP@:r')],
  [...NOBODY, { owner: null, group: 'it' }, { owner: '', group: '' }]);
same('owners', [[...owned.users], [...owned.groups], owned.unread],
  [['olga'], ['office', 'it'], ['OWNER@']]);

// Members that are known: the pairs of groups that count, and nobody's that aren't told.
const KNOWN = { members: true, users: ['ann', 'bob', 'kim'],
  groups: { staff: ['bob', 'kim'], board: ['ann'] }, names: {}, made: '' };
const exact = partiesFor(plain, KNOWN, 'ann');
same('pairs', exact.pairs, [['staff', 'bob'], ['staff', 'kim']]);
same('callers', exact.all.map(({ user, groups, key }) => [user, groups, key]), [
  ['ann', [], '+me'], ['bob', ['staff'], 'bob'], ['kim', ['staff'], 'kim'], [null, [], '*']]);
same('I am asked for', labels(exact), ['ann +none']);

// Members that aren't: up to three groups together, alone and with each user.
const named = (users, groups) => ({ unread: [], users: new Set(users), groups: new Set(groups) });
same('sets of two groups', labels(partiesFor(named(['bob'], ['a', 'b']), null)),
  ['* a', '* b', '* a,b', 'bob a', 'bob b', 'bob a,b']);
same('five groups', partiesFor(named([], ['a', 'b', 'c', 'd', 'e']), null).sets.length, 25);
const many = (sign, most) => Array.from({ length: most }, (_, at) => `${sign}${at}`);
for (const [users, groups, size, sets] of [[9, 8, 3, 920], [10, 8, 3, 1012], [40, 6, 2, 861],
  [9, 44, 1, 440], [99, 10, 1, 1000], [100, 10, 1, 10], [0, 1000, 1, 1000], [0, 1001, 0, 0]]) {
  const asked = partiesFor(named(many('u', users), many('g', groups)), null);
  const isLess = sets > 1000;
  same(`${users} users, ${groups} groups`, [asked.most, asked.sets.length],
    isLess ? [2, 11 * 36] : [size, sets]);
}
same('not more than is asked for',
  partiesFor(named(['u'], ['a', 'b']), null, '', 1).sets.length, 4);
same('nobody has the name of a set', partiesFor(named(['+0', 'bob'], ['a']), null).sets[0].label,
  '++0');
// A set is told of where more is said of it than of its parts.
const { all } = partiesFor(named(['bob'], ['a', 'b']), null);
const who = ({ user, groups }) => [user, ...groups].filter(Boolean).join('+') || '*';
const toldOf = (said) => toTell(all.map((caller) => (
  { caller, says: new Set(said[who(caller)] ?? []) })).filter(({ says }) => says.size > 0))
  .map(({ caller }) => who(caller));
same('what a group gains', toldOf({ a: 'r', 'a+b': 'r', 'bob+a': 'r', 'bob+a+b': 'r' }), ['a']);
same('what two together gain', toldOf({ a: 'r', 'a+b': 'rw', 'bob+a': 'r', 'bob+a+b': 'rw' }),
  ['a', 'a+b']);
same('what one gains in a group', toldOf({ 'bob+a': 'r', 'bob+a+b': 'r' }), ['bob+a']);
same('what is added up', toldOf({ a: 'r', b: 'w', bob: 'd', 'a+b': 'rw', 'bob+a+b': 'rwd' }),
  ['bob', 'a', 'b']);

// Levels, by the row of an object and that of a document of somebody else in it.
const LEVELS = [['rwaxDtcCo', 'rwxtc', 'manage'], ['rwaxDtc', 'rwatc-', 'remove'],
  ['rwaxtc', 'rwatc', 'change'], ['rwaxtc', 'rtc', 'add'], ['rxtc', 'rtc', 'read'],
  ['rxtc', '', 'see'], ['wx', '', 'drop'], ['x', '', 'pass'], ['t', '', 'none'], ['', 'r', 'none']];
for (const [mask, inside, level] of LEVELS) {
  same(`of ${mask} and ${inside}`, levelOf({ mask, removes: false },
    { mask: inside, removes: inside.endsWith('-') }), level);
}
for (const [mask, removes, level] of [['rwC', false, 'manage'], ['rw', true, 'remove'],
  ['rw', false, 'change'], ['r', true, 'read'], ['', true, 'none']]) {
  same(`of a document, ${mask}`, levelOf({ mask, removes }), level);
}

// The text of a question: comments are those of a list, and what has no name has a free one.
same('a mark', markFor(['/a/~x', '/b']), '~~');
const question = questionOf([{ path: '/', kind: 'folder', text: 'list:a\n# x\nA::bob:r\n',
  object: { owner: 'olga', group: 'office' } }, { path: '/\u0000d', kind: 'document',
  text: null, object: { owner: null, group: '' } }], [{ set: '/', text: 'list:\n' }],
partiesFor(named([], ['staff']), null), { lists: true, mark: '~~' });
same('a question', question.split('\n'), ['as +0 * staff', 'folder olga office /', 'list:a', '#: x',
  'A::bob:r', 'document ? ? /~~d', 'unread', 'set /', 'list:', 'lists', '']);

// Where all of them are too many, fewer groups are asked for together; or nothing is asked.
let asked = [];
globalThis.fetch = async (_, { body }) => {
  asked.push(body);
  return Response.json({ rows: [['/', 'folder', '*', '', 'no', '', 'no']], lists: [] });
};
const top = { path: '/', kind: 'folder', text: 'list:a\n', object: NOBODY[0] };
const documents = (most) => Array.from({ length: most }, (_, at) => (
  { path: `/${at}`, kind: 'document', text: 'follows', object: NOBODY[0] }));
const ask = (most, groups) => foresee({ objects: [{ ...top,
  text: printList(listOf(...groups.map((one) => `A:fdg:${one}:r`))) },
...documents(most)] }).catch(({ status }) => status);
for (const [objects, groups, wanted] of [[100, 8, 3], [10000, 14, 2], [20000, 20, 1],
  [40000, 1, 413]]) {
  asked = [];
  const said = await ask(objects, many('g', groups));
  same(`${objects} objects, ${groups} groups`, said.asked?.most ?? said, wanted);
  same('and is asked once', asked.length, wanted === 413 ? 0 : 1);
}
// No answer is none.
for (const [how, wanted] of [[() => Response.json({ why: 'no-answer' }, { status: 503 }), 503],
  [() => new Response('', { status: 429 }), 429],
  [() => Response.json({ why: 'refused', line: 'W5' }, { status: 400 }), 400]]) {
  globalThis.fetch = async () => how();
  same(`a fault ${wanted}`, await ask(1, []), wanted);
}

for (const one of faults.slice(0, 5)) console.log(one);
console.log(`${count} tried, ${faults.length} faults`);
process.exitCode = faults.length === 0 ? 0 : 1;
