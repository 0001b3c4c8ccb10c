// What web/net/crawl.js keeps of what lies further down, when a list was changed since it looked:
// node crawling.mjs PAGE ROOMS
// Each of ROOMS rooms is that of model.mjs, with a door. It is asked once, and all lists are as the
// room then has them. A fault of the door is told, and then no list. The last line is
// 'ROOMS tried, N faults'.
import { resolve } from 'node:path';
import { pathToFileURL } from 'node:url';
import { Model, doorBelow } from './model.mjs';

const [page, rooms] = process.argv.slice(2);
const module = (name) => import(`${pathToFileURL(resolve(page)).href}/${name}`);
const [{ Looking }, lists, { FOLLOWS }] = await Promise.all(
  ['crawl.js', 'entries.js', 'question.js'].map(module));

let seed = 3;
const random = (most) => {
  seed = (seed * 1103515245 + 12345) % 2147483648;
  return Math.floor(seed / 65536) % most;
};
const pick = (all) => all[random(all.length)];
const entryOf = (text) => lists.readEntry(text).entry;
const ALL = 'rwanNxDtThHdcCoy';
const ownOf = (kind) => Array.from({ length: random(3) }, () =>
  entryOf(`A:${kind === 'folder' ? pick(['fd', '', 'f', 'dn', 'fi']) : ''}:${
    pick(['bob', 'eve', 'OWNER@'])}:${pick(['rxtc', 'rwaxtc', ALL])}`));

function treeAtRandom() {
  const paths = [['/', 'folder'], ['/r', 'folder']];
  for (let number = 0; number < 3 + random(12); number += 1) {
    const [folder] = pick(paths.filter(([path, kind]) => kind === 'folder' && path !== '/'));
    paths.push([`${folder}/n${number}`, pick(['folder', 'document'])]);
  }
  return new Model(paths.map(([path, kind]) => ({ path, kind, owner: pick(['bob', 'eve']),
    group: 'office', auto: kind === 'document' || random(5) > 0,
    protect: path !== '/' && random(4) === 0, own: ownOf(kind) })));
}

let [model, asked, fails] = [null, 0, null];
const textOf = ({ auto, protect, full }) => lists.printList({ auto, protect, entries: full });
globalThis.fetch = async (target) => {
  asked += 1;
  if (fails) return fails();
  const [, top, apart = ''] = /^door\/below(\/[^?]*)\??(.*)$/.exec(decodeURIComponent(target));
  return Response.json(doorBelow(model, top, apart, textOf));
};

const lookedBelow = async (looking, path) => {
  looking.below(path);
  await looking.follow(() => {}, () => true);
  return looking.below(path);
};

const faults = [];
// What has no name stands for several, of which all have the list that it has.
const alike = (path) => {
  const [folder] = path.split(/\/?\u0000/);
  const names = [...model.objects.keys()].filter((one) => one.startsWith(`${folder}/`));
  const lines = (one) => textOf(one).split('\n').slice(1).join('\n');
  return names.map((one) => lines(model.objects.get(one)));
};
const compare = (what, { nodes, all }) => {
  if (!all) faults.push(`${what}: not all was seen`);
  for (const { path, list, text } of nodes) {
    const mine = lists.printList(list);
    // A question has the texts, which have to be those of the same moment.
    if (text !== FOLLOWS && text !== mine) faults.push(`${what}: ${path} is asked with\n${text}`);
    if (path.includes('\u0000')) {
      const lines = mine.split('\n').slice(1).join('\n');
      if (!alike(path).includes(lines)) faults.push(`${what}: nothing at ${path} has\n${mine}`);
      continue;
    }
    const is = textOf(model.objects.get(path));
    if (mine !== is) faults.push(`${what}: ${path} has\n${is}not\n${mine}`);
  }
  const seen = nodes.reduce((sum, { count = 1 }) => sum + count, 0);
  const are = [...model.objects.keys()].filter((path) => path.startsWith('/r/')).length;
  if (seen !== are) faults.push(`${what}: ${seen} of ${are} objects`);
};

// The panel sends lists at the object that it is about, above it, and where something differs.
const changeable = () => [...model.objects.values()].filter(({ path, own, protect, auto }) =>
  path !== '/' && (path === '/r' || own.length > 0 || protect || !auto));

for (let number = 0; number < Number(rooms); number += 1) {
  model = treeAtRandom();
  const looking = new Looking('/r');
  compare('at first', await lookedBelow(looking, '/r'));
  const first = asked;
  for (let turn = 0; turn < 3; turn += 1) {
    const one = pick(changeable());
    model.set(one.path, { auto: one.auto, protect: one.protect,
      entries: [...ownOf(one.kind), ...one.protect || one.grey.length === 0 ? [] : one.grey] });
    const now = model.objects.get(one.path);
    looking.changed(one.path, { auto: now.auto, protect: now.protect, entries: now.full });
    compare(`after ${one.path}`, await lookedBelow(looking, '/r'));
  }
  if (asked !== first) faults.push(`${asked - first} requests more`);
}

// What it says where the door can't: nothing was seen, and why.
const room = (status, told) => () => Response.json(told, { status });
const told = async (answers) => {
  fails = answers;
  const looking = new Looking('/r');
  const { nodes, unread, all } = await lookedBelow(looking, '/r');
  const { ended } = looking;
  fails = null;
  looking.goOn();
  const again = await lookedBelow(looking, '/r');
  return { seen: nodes.length, unread: unread.map(({ path }) => path), all,
    why: ended?.fault.body?.why ?? ended?.fault.status ?? null, later: again.all };
};
for (const [name, answers, wanted] of [
  ['too much', room(413, { why: 'too-many' }), { all: false, why: 'too-many' }],
  ['too many requests', room(429, { why: 'too-many-requests' }),
    { all: false, why: 'too-many-requests' }],
  ['no such address', () => new Response('<html>', { status: 404 }), { all: false, why: 404 }],
  ['a fault', () => new Response('a fault of the door', { status: 500 }), { all: false, why: 500 }],
  ['what may not be listed', room(403, { at: '/r', bits: 'r', entry: null, text: null }),
    { all: true, unread: ['/r'] }],
  ['what is gone', room(404, { at: '/r', why: 'no-such' }), { all: true }],
]) {
  const is = JSON.stringify(await told(answers));
  const want = JSON.stringify({ seen: 0, unread: [], why: null, later: true, ...wanted });
  const sorted = (text) => JSON.stringify(Object.entries(JSON.parse(text)).sort());
  if (sorted(is) !== sorted(want)) faults.push(`${name}: ${is}, not ${want}`);
}
for (const one of faults.slice(0, 3)) console.log(one);
console.log(`${rooms} tried, ${faults.length} faults`);
process.exitCode = faults.length === 0 ? 0 : 1;
