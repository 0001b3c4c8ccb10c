// What the web interface says of what is passed down by a change of a list and by a move, against
// what the program does with a room at random: node compared.mjs PAGE PROGRAM FOLDER ROUNDS
// In each round a room is made in FOLDER and served. After each of its changes all lists are
// compared. The status is 1 if something differs.
import { execFileSync, spawn } from 'node:child_process';
import { mkdirSync, writeFileSync } from 'node:fs';
import { Agent, request } from 'node:http';
import { resolve } from 'node:path';
import { pathToFileURL } from 'node:url';

const [page, program, folder, rounds] = process.argv.slice(2);
const module = (name) => import(`${pathToFileURL(resolve(page)).href}/${name}`);
const [inherit, lists] = await Promise.all(['inherit.js', 'entries.js'].map(module));

let seed = 11;
const random = (most) => {
  seed = (seed * 1103515245 + 12345) % 2147483648;
  return Math.floor(seed / 65536) % most;
};
const pick = (all) => all[random(all.length)];
const ALL = 'rwanNxDtThHdcCoy';
const GROUPS = { staff: ['bob', 'carol'], sales: ['carol', 'dana'] };
const USERS = ['alice', 'bob', 'carol', 'dana'];
const WHO = [...USERS.map((user) => [user, '']), ['staff', 'g'], ['sales', 'g'], ['OWNER@', ''],
  ['GROUP@', ''], ['EVERYONE@', ''], ['AUTHENTICATED@', ''], ['ANONYMOUS@', '']];
const MASKS = ['rxtc', 'rwaxtc', 'rwaxDtc', ALL, 'x', 'wx', 'd', 'D', 'w'];
const LINES = ['D:d:EVERYONE@:Dd', 'A:fi:OWNER@:d'];
const RIGHTS = 'rxwaDtdcCo';
const told = [];
let count = 0;

function lineAtRandom(kind) {
  const line = random(8) === 0 ? pick(LINES) : null;
  if (line !== null && kind === 'folder') return line;
  const [who, group] = pick(WHO);
  const reach = kind === 'folder' ? pick(['', 'fd', 'fd', 'd', 'fi', 'di', 'f', 'fdn', 'fn']) : '';
  const mask = random(2) === 0 ? pick(MASKS)
    : [...RIGHTS].filter(() => random(2) === 1).join('');
  return `${pick('AAAD')}:${reach}${group}:${who}:${mask}`;
}

// Root may always do all, so that all that is asked for here is done.
function textAtRandom(kind) {
  const first = `list:${random(5) > 0 ? 'a' : ''}${random(3) === 0 ? 'p' : ''}`;
  const lines = Array.from({ length: random(5) }, () => lineAtRandom(kind));
  const grey = Array.from({ length: random(3) }, () => lineAtRandom(kind))
    .map((line) => line.replace(/^(.):/, '$1:I'));
  const manager = `A:${kind === 'folder' ? 'fd' : ''}:root:${ALL}`;
  return [first, manager, ...lines, ...grey, ''].join('\n');
}

class Room {
  constructor(number) {
    Object.assign(this, { file: `${folder}/R${number}`, objects: new Map(), names: 0 });
    const run = (...words) => execFileSync(program, words, { stdio: ['ignore', 'pipe', 'pipe'] });
    run('init', this.file, 'root', 'office');
    const rows = Object.entries(GROUPS).flatMap(([group, users]) =>
      users.map((user) => `${group},${user}`));
    writeFileSync(`${folder}/groups.csv`, ['group,user', ...rows, ''].join('\n'));
    run('groups', this.file, `${folder}/groups.csv`);
    this.text = ['list:a', `A:fd:root:${ALL}`, 'A::AUTHENTICATED@:x', ''].join('\n');
    execFileSync(program, ['reset', this.file, '/', 'dacl'], { input: this.text });
    this.socket = `${folder}/s${number}`;
    this.agent = new Agent({ keepAlive: true, maxSockets: 1 });
  }

  async serve() {
    this.server = spawn(program, ['serve', this.file, '--socket', this.socket, '--count',
      '1000000'], { stdio: ['ignore', 'pipe', 'inherit'] });
    await new Promise((done) => { this.server.stdout.once('data', done); });
    this.put('/', 'folder', 'root', lists.readListText(this.text).list);
  }

  stop() {
    this.server.kill();
    this.agent.destroy();
  }

  put(path, kind, owner, list) {
    this.objects.set(path, { path, kind, object: { owner, group: 'office' }, list });
  }

  ask(method, target, body = '') {
    return new Promise((done, fail) => {
      const asking = request({ socketPath: this.socket, agent: this.agent, method, path: target,
        headers: { 'Room-User': 'root', 'Content-Length': Buffer.byteLength(body) } }, (reply) => {
        let text = '';
        reply.on('data', (part) => { text += part; });
        reply.on('end', () => (reply.statusCode < 300 ? done(text)
          : fail(new Error(`${method} ${target}: ${reply.statusCode} ${text}`))));
      });
      asking.on('error', fail);
      asking.end(body);
    });
  }

  above(path) { return this.objects.get(path.slice(0, path.lastIndexOf('/')) || '/'); }

  folders() { return [...this.objects.values()].filter(({ kind }) => kind === 'folder'); }

  // What follows an object whose list is another one now.
  follow(top) {
    for (const one of this.objects.values()) {
      if (one.path === '/' || !one.path.startsWith(`${top === '/' ? '' : top}/`)) continue;
      const above = this.above(one.path).list;
      one.list = { ...one.list, entries: inherit.afterMoving(one.list, above, one.kind) };
    }
  }

  async make() {
    this.names += 1;
    const { path, list } = pick(this.folders());
    const made = `${path === '/' ? '' : path}/n${this.names}`;
    const kind = random(3) === 0 ? 'document' : 'folder';
    await this.ask(kind === 'folder' ? 'POST' : 'PUT',
      `/${kind === 'folder' ? 'folder' : 'doc'}${made}`);
    const owner = pick(USERS);
    const group = pick(['staff', 'sales', 'office']);
    await this.ask('PUT', `/attr${made}`, JSON.stringify({ group, owner }));
    this.put(made, kind, owner, { auto: list.auto, protect: false,
      entries: inherit.passedDown(list.entries, kind) });
    this.objects.get(made).object.group = group;
  }

  async change() {
    const one = pick([...this.objects.values()].slice(1));
    const text = textAtRandom(one.kind);
    await this.ask('PUT', `/dacl${one.path}`, text);
    const sent = lists.readListText(text).list;
    const { entries } = inherit.afterSending(sent, one.list, this.above(one.path).list, one.kind);
    one.list = { ...sent, entries };
    this.follow(one.path);
    return `PUT ${one.path}\n${text}`;
  }

  async move() {
    const one = pick([...this.objects.values()].slice(1));
    const isIn = (path) => path === one.path || path.startsWith(`${one.path}/`);
    const to = pick(this.folders().filter(({ path }) => !isIn(path)));
    this.names += 1;
    const moved = `${to.path === '/' ? '' : to.path}/n${this.names}`;
    await this.ask('POST', `/move${one.path}`, JSON.stringify({ to: moved }));
    const before = one.path;
    const carried = [...this.objects.values()].filter(({ path }) => isIn(path));
    for (const each of carried) this.objects.delete(each.path);
    for (const each of carried) {
      each.path = moved + each.path.slice(before.length);
      this.objects.set(each.path, each);
    }
    one.list = { ...one.list, entries: inherit.afterMoving(one.list, to.list, one.kind) };
    this.follow(moved);
    return `move ${before} to ${moved}`;
  }

  async compareLists(what) {
    for (const { path, list } of this.objects.values()) {
      const [is, mine] = [await this.ask('GET', `/dacl${path}`), lists.printList(list)];
      count += 1;
      if (is !== mine) told.push(`${what}: ${path} has\n${is}not\n${mine}`);
    }
  }
}

mkdirSync(folder, { recursive: true });
for (let number = 0; number < Number(rounds); number += 1) {
  const room = new Room(number);
  await room.serve();
  for (let made = 0; made < 30; made += 1) await room.make();
  for (let turn = 0; turn < 24; turn += 1) {
    const what = random(3) === 0 ? await room.move() : await room.change();
    await room.compareLists(what);
  }
  room.stop();
}
for (const one of told.slice(0, 3)) console.log(one);
console.log(`${count} lists`);
console.log(`${told.length} differ`);
process.exitCode = told.length === 0 ? 0 : 1;
