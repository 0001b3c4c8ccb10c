// What web/net says of a list that may not be read, and of a room that fails or is away: node
// away.mjs PAGE
// Only a denial is a list that can't be read, or of which nobody says who could have changed it.
// The last line is 'N tried, M faults'.
import { resolve } from 'node:path';
import { pathToFileURL } from 'node:url';

const [page] = process.argv.slice(2);
const module = (name) => import(`${pathToFileURL(resolve(page)).href}/${name}`);
const [{ attributesAt, foldersAbove, listAt }, { changersOf }] =
  await Promise.all(['ancestors.js', 'door.js'].map(module));

// The half minute for which the page asks again takes no time here.
let now = 0;
Date.now = () => now;
globalThis.setTimeout = (does, time) => {
  now += time;
  queueMicrotask(does);
};

const OWNED = '{"kind":"folder","owner":"olga","group":"office"}';
const denied = (at) => Response.json({ at, bits: 'c', entry: null, text: null }, { status: 403 });
const answers = {
  denied: (path) => denied(path),
  gone: (path) => Response.json({ at: path, why: 'no-such' }, { status: 404 }),
  failed: () => Response.json({ why: 'store' }, { status: 500 }),
  many: () => Response.json({ why: 'too-many-requests' }, { status: 429 }),
  away: () => new Response('<html>', { status: 502 }),
  slow: () => new Response('<html>', { status: 504 }),
  lost: () => { throw new TypeError('network'); },
  changed: () => Response.json({ at: '/a', tag: '"9"', who: ['bob', 'g:it'], why: 'changed' },
    { status: 412 }),
  closed: () => Response.json({ at: '/a', tag: '"9"', who: null, why: 'changed' },
    { status: 412 }),
};
// What is asked of /a is answered so, and of other paths as by a room.
let how = null;
let condition = null;
globalThis.fetch = async (target, { headers } = {}) => {
  condition = headers?.['If-Match'] ?? null;
  const [, word, path] = /(dacl|attr)(\/[^?]*)/.exec(target);
  if (path === '/a') return answers[how](path);
  return new Response(word === 'dacl' ? 'list:a\nA::olga:rxtc\n' : OWNED);
};

const told = (value) =>
  JSON.stringify(value, (_, one) => (one instanceof Error ? one.status : one));
const said = (asking) => asking.then((value) => value, (fault) => fault);
const faults = [];
let count = 0;
async function compare(asking, wanted) {
  count += 1;
  const is = told(await said(asking));
  if (is !== told(wanted)) faults.push(`${how}: ${is}, not ${told(wanted)}`);
}

const UNKNOWN = { owner: null, group: null };
for (const [name, status] of [
  ['denied', null], ['gone', 404], ['failed', 500], ['many', 429], ['away', 502], ['slow', 504],
  ['lost', 0]]) {
  how = name;
  await compare(listAt('/a'), status);
  await compare(attributesAt('/a'), status ?? UNKNOWN);
  await compare(foldersAbove('/a/b', false), status
    ?? [{ path: '/a', text: null, list: null, object: UNKNOWN }]);
  await compare(foldersAbove('/a/b', true).then((all) => all.length), status ?? 2);
  await compare(foldersAbove('/c/b', false).then(([{ text }]) => text), 'list:a\nA::olga:rxtc\n');
}
for (const [name, who] of [
  ['changed', ['bob', 'g:it']], ['closed', null], ['denied', null], ['gone', undefined],
  ['failed', undefined], ['away', undefined], ['lost', undefined]]) {
  how = name;
  await compare(changersOf('dacl', '/a'), who);
  if (condition !== '""') faults.push(`${how}: asked with ${condition}`);
}
for (const one of faults.slice(0, 5)) console.log(one);
console.log(`${count} tried, ${faults.length} faults`);
process.exitCode = faults.length === 0 ? 0 : 1;
