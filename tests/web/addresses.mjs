// Where an address of the page leads, and what is asked for there: node addresses.mjs PAGE
// Whatever stands behind the '#', a request keeps its route: a browser goes up by '..'. The last
// line is 'N tried, M faults'.
import { resolve } from 'node:path';
import { pathToFileURL } from 'node:url';

const [page] = process.argv.slice(2);
const { target, whereIs } = await import(`${pathToFileURL(resolve(page)).href}/addresses.js`);
const BASE = 'https://rooms.example/invoices/';
const faults = [];
let count = 0;

function same(what, got, wanted) {
  count += 1;
  if (got !== wanted) faults.push(`${what}: ${got}, wanted ${wanted}`);
}

const asked = (word, path) => new URL(target(word, path), BASE).pathname;

const ENDS = [['', '/'], ['#/', '/'], ['#/a/b', '/a/b'], ['#/a//b/', '/a/b'], ['#/a%20b', '/a b'],
  ['#/..a/...', '/..a/...'], ['#/%', '/%'], ['#/%3F%23', '/?#'],
  ['#/../doc/bob/fake', '/doc/bob/fake'], ['#/a/../../b', '/a/b'], ['#/./a/.', '/a'],
  ['#/%2e%2e/a', '/a'], ['#/.%2E/a', '/a'], ['#/%2e', '/'], ['#/a%2f..%2F..%2Fb', '/a/b'],
  ['#..%2F..%2Fdoc', '/doc'], ['#/%2F%2Fa', '/a']];
for (const [hash, path] of ENDS) {
  for (const view of ['', '?show', '?earlier=2026-11-01.030000']) {
    same(`${hash}${view}`, whereIs(hash + view).path, path);
  }
  const kept = path === '/' ? '/' : path.split('/').map(encodeURIComponent).join('/');
  same(`what ${hash} asks for`, asked('door/doc', whereIs(hash).path), `/invoices/door/doc${kept}`);
}

for (const path of ['/..', '/.', '/a/../b', '/../doc/f', '/a/.']) {
  count += 1;
  try {
    faults.push(`${path} is asked for: ${target('can', path)}`);
  } catch (fault) {
    if (!(fault instanceof RangeError)) faults.push(String(fault));
  }
}

for (const fault of faults) console.log(fault);
console.log(`${count} tried, ${faults.length} faults`);
