// Large documents sent over a line that fails: node in_pieces.mjs PAGE
// At each request in turn it fails before or after the door has done what was asked, for a moment
// or for longer than the page asks again, or the door is started anew. Each time the document comes
// to the room once, as it is, and no piece that was answered is sent again to a door that has it.
// The last line is 'N tried, M faults'.
import { resolve } from 'node:path';
import { pathToFileURL } from 'node:url';

const [page] = process.argv.slice(2);
globalThis.document = { documentElement: {}, getElementById: () => null };
const module = (name) => import(`${pathToFileURL(resolve(page)).href}/${name}`);
const { putDocument, forgetPieces } = await module('in_pieces.js');

// The half minute for which the page asks again takes no time here.
let now = 0;
Date.now = () => now;
globalThis.setTimeout = (does, time) => {
  now += time;
  queueMicrotask(does);
};

const PIECE = 1048576;
const SIZE = 3 * PIECE + 500;
const json = (status, told) => ({ status, body: JSON.stringify(told) });

// A door, as docs/large.md has it.
class Door {
  constructor() {
    Object.assign(this, { uploads: new Map(), ended: new Map(), kept: null, writes: 0, count: 0,
      sent: [] });
  }

  anew() {
    this.uploads.clear();
    this.ended.clear();
  }

  async answer(method, where, fields, body) {
    const [, route, rest, size] = /^door\/(\w+)\/([^?]*)\??(.*)$/.exec(where);
    if (route === 'upload') return this.begin(Number(size));
    const [id, number] = route === 'doc' ? [fields['Room-Upload']] : rest.split('/');
    if (route === 'doc' && this.ended.has(id)) return this.ended.get(id);
    const pieces = this.uploads.get(id);
    if (!pieces) return json(404, { why: 'no-upload' });
    if (route === 'doc') return this.finish(id, pieces);
    if (method === 'GET') return json(200, { here: [...pieces.keys()] });
    if (method === 'DELETE') this.uploads.delete(id);
    else {
      this.sent.push(`${id} ${number}`);
      pieces.set(Number(number), await body.text());
    }
    return { status: 204, body: '' };
  }

  begin(size) {
    if (this.kept !== null) return json(412, { why: 'exists', tag: null });
    if (size !== SIZE) throw new Error(`${size} bytes`);
    this.count += 1;
    this.uploads.set(`u${this.count}`, new Map());
    return json(201, { upload: `u${this.count}` });
  }

  finish(id, pieces) {
    if (this.kept !== null) return json(412, { why: 'exists', tag: null });
    this.kept = [1, 2, 3, 4].map((number) => pieces.get(number)).join('');
    this.writes += 1;
    this.ended.set(id, { status: 201, body: '' });
    this.uploads.delete(id);
    return this.ended.get(id);
  }
}

let door = null;
let asked = 0;
// From which request on it fails, for how many, and how.
let fails = null;

async function reached(method, where, fields, body) {
  asked += 1;
  const isBad = asked >= fails.from && asked < fails.from + fails.many;
  if (isBad && fails.how === 'before') return null;
  if (isBad && fails.how === 'anew') {
    door.anew();
    return { status: 502, body: '<html>' };
  }
  const said = await door.answer(method, where, fields, body);
  return isBad ? null : said;
}

globalThis.fetch = async (where, { method = 'GET', headers = {} } = {}) => {
  const said = await reached(method, where, headers, null);
  if (said === null) throw new TypeError('network');
  return new Response(said.status === 204 ? null : said.body, { status: said.status });
};

globalThis.XMLHttpRequest = class {
  upload = {};

  fields = {};

  open(method, where) { Object.assign(this, { method, where }); }

  setRequestHeader(name, value) { this.fields[name] = value; }

  getResponseHeader() { return '"tag"'; }

  async send(body) {
    const said = await reached(this.method, this.where, this.fields, body);
    if (said === null) return this.onerror();
    this.upload.onprogress({ loaded: body.size, total: body.size });
    Object.assign(this, { status: said.status, responseText: said.body });
    return this.onload();
  }
};

const text = 'abcdefghijklmnopqrstuvwxyz'.repeat(SIZE / 26 + 1).slice(0, SIZE);
const faults = [];
let count = 0;

// As often as it is tried again by hand.
async function put(file) {
  for (let turn = 1; ; turn += 1) {
    try {
      return (await putDocument('/d', file, { 'If-None-Match': '*' })).made;
    } catch (fault) {
      // Whoever reads what is there finds what they have sent.
      if (fault.status === 412 && door.writes === 1) return true;
      if (turn === 4 || ![0, 502].includes(fault.status)) throw fault;
      fails = { ...fails, many: 0 };
    }
  }
}

for (const how of ['before', 'after', 'anew']) {
  for (const many of [1, 2, 100]) {
    for (let from = 1; from <= 8; from += 1) {
      [door, asked, fails] = [new Door(), 0, { how, many, from }];
      count += 1;
      const made = await put(new Blob([text])).catch((fault) => fault);
      const twice = door.sent.length - new Set(door.sent).size;
      const name = `${how} ${many} from ${from}`;
      if (made !== true) faults.push(`${name}: ${made}`);
      if (door.kept !== text) faults.push(`${name}: other bytes`);
      if (door.writes !== 1) faults.push(`${name}: written ${door.writes} times`);
      if (how !== 'anew' && from > 1 && door.count > 1) faults.push(`${name}: begun again`);
      // The one whose answer was lost comes again, as often as that is lost.
      if (how !== 'after' && twice > 0) faults.push(`${name}: ${twice} pieces twice`);
      if (how === 'after' && twice > Math.min(many, 30)) faults.push(`${name}: ${twice} twice`);
    }
  }
}

// What isn't sent after all is taken away.
[door, asked, fails] = [new Door(), 0, { how: 'before', many: 1000, from: 4 }];
const left = new Blob([text]);
await putDocument('/d', left, { 'If-None-Match': '*' }).catch(() => {});
fails = { ...fails, many: 0 };
count += 1;
if (door.uploads.size !== 1) faults.push('nothing is left');
forgetPieces([left]);
await new Promise((done) => { setImmediate(done); });
if (door.uploads.size !== 0) faults.push('it is left');

for (const one of faults.slice(0, 5)) console.log(one);
console.log(`${count} tried, ${faults.length} faults`);
process.exitCode = faults.length === 0 ? 0 : 1;
