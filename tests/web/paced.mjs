// How many requests of a kind the page sends at once: node paced.mjs PAGE
// nginx lets a user have 16 listings, and as many requests to the door and for nights; a browser
// sends all of them by HTTP/2. The last line is 'N tried, M faults'.
import { resolve } from 'node:path';
import { pathToFileURL } from 'node:url';

const [page] = process.argv.slice(2);
const module = (name) => import(`${pathToFileURL(resolve(page)).href}/${name}`);
const [{ list, readList }, { differsBelow }, { opensBy }, { listThen }] =
  await Promise.all(['api.js', 'door.js', 'readers_then.js', 'nights.js'].map(module));

const MOST = 16;
const faults = [];
let count = 0;
const running = new Map();
const most = new Map();
let answered = 0;
const ANSWERS = { folder: '[]', people: '{"users":[],"groups":{},"names":{},"members":false}',
  attr: '{"kind":"folder","owner":"olga","group":"office"}' };
globalThis.fetch = async (target) => {
  const [kind] = target.split('/', 1);
  running.set(kind, (running.get(kind) ?? 0) + 1);
  most.set(kind, Math.max(most.get(kind) ?? 0, running.get(kind)));
  await new Promise((done) => { setTimeout(done, 1); });
  running.set(kind, running.get(kind) - 1);
  answered += 1;
  if (target.includes('lost')) throw new TypeError('network');
  if (target.includes('denied')) return Response.json({ bits: 'c' }, { status: 403 });
  if (target.startsWith('door/below')) {
    return Response.json({ at: '/', list: null, objects: [], rest: [], unlisted: [], unread: [] });
  }
  return new Response(ANSWERS[kind] ?? 'list:a\nA::olga:rxtc\n',
    { headers: { 'Room-User': 'olga' } });
};

// All of them are answered, and no more than MOST of a kind at once.
async function check(name, asking, wanted) {
  count += 1;
  most.clear();
  answered = 0;
  const told = await Promise.allSettled(asking());
  if (wanted !== null && (told.length !== wanted || answered !== wanted)) {
    faults.push(`${name}: ${told.length} told, ${answered} answered`);
  }
  for (const [kind, those] of most) {
    if (those > MOST) faults.push(`${name}: ${those} of ${kind} at once`);
  }
}

const NIGHT = '2026-11-30.040000';
const sixty = Array.from({ length: 60 }, (_, index) => `/plans/${index}`);
await check('lists of a night', () => sixty.map((path) => listThen(NIGHT, path)), 60);
await check('of which some are denied',
  () => sixty.map((path) => listThen(NIGHT, `${path}/denied`)), 60);
await check('listings', () => sixty.map((path) => list(path)), 60);
await check('lists', () => sixty.map((path) => readList('dacl', path)), 60);
await check('what differs below', () => sixty.map((path) => differsBelow(path)), 60);
// What comes back of forty folders: their lists of that night, and those of now on the way.
const missing = sixty.slice(0, 40).map((path) => ({ path: `${path}/x`, kind: 'document' }));
await check('what comes back', () => [opensBy(NIGHT, missing, () => {}, () => false)], null);
for (const one of faults.slice(0, 6)) console.log(one);
console.log(`${count} tried, ${faults.length} faults`);
process.exitCode = faults.length === 0 ? 0 : 1;
