// A room that is served with its door, for plays of the page's modules by node: what the page asks
// for is asked of them in a user's name, as nginx would.
import { execFileSync } from 'node:child_process';
import { copyFileSync, existsSync, rmSync, writeFileSync } from 'node:fs';
import { Agent, request } from 'node:http';
import { connect } from 'node:net';

// A server ends a connection after so many.
const MESSAGES = 90;

const messageOf = ({ user, method, target, body, headers = {} }, isLast) => {
  const fields = { 'Room-User': user, ...headers, 'Content-Length': Buffer.byteLength(body),
    ...isLast ? { Connection: 'close' } : {} };
  const head = Object.entries(fields).map(([name, value]) => `${name}: ${value}\r\n`).join('');
  return [Buffer.from(`${method} ${target} HTTP/1.1\r\n${head}\r\n`), Buffer.from(body)];
};

// What the room answered over one connection: {status, headers, body} of each.
function repliesIn(bytes) {
  const found = [];
  for (let at = 0; at < bytes.length;) {
    const end = bytes.indexOf('\r\n\r\n', at);
    const [first, ...fields] = bytes.toString('latin1', at, end).split('\r\n');
    const headers = Object.fromEntries(fields.map((field) => field.split(': ')));
    at = end + 4 + Number(headers['Content-Length'] ?? 0);
    found.push({ status: Number(first.split(' ')[1]), headers, body: bytes.subarray(end + 4, at) });
  }
  return found;
}

export class Served {
  // 'folder' has the room F, its socket run/rooms/office/socket, and that of the door.
  constructor(program, folder) {
    Object.assign(this, { program, folder, night: new Map(), questions: [], waiting: [],
      agent: new Agent({ keepAlive: true, maxSockets: 4 }) });
  }

  // {status, headers, body}.
  ask(user, method, target, body = '', headers = {}) {
    const one = { user, method, target, body, headers };
    return target.startsWith('/door/') ? this.askDoor(one) : this.askRoom(one);
  }

  askDoor({ user, method, target, body, headers }) {
    const bytes = Buffer.from(body);
    return new Promise((done, fail) => {
      const asking = request({ socketPath: `${this.folder}/run/door/office/socket`, method,
        path: target, agent: this.agent,
        headers: { ...headers, 'Room-User': user, 'Content-Length': bytes.length } }, (reply) => {
        const parts = [];
        reply.on('data', (part) => parts.push(part));
        reply.on('end', () => done({ status: reply.statusCode, headers: reply.headers,
          body: Buffer.concat(parts) }));
      });
      asking.on('error', fail);
      asking.end(bytes);
    });
  }

  // The room answers one connection after the other, so what is asked at one moment shares one.
  askRoom(one) {
    return new Promise((done, fail) => {
      this.waiting.push({ one, done, fail });
      if (this.waiting.length === 1) setImmediate(() => this.askWaiting());
    });
  }

  askWaiting() {
    const all = this.waiting.splice(0);
    for (let at = 0; at < all.length; at += MESSAGES) {
      const some = all.slice(at, at + MESSAGES);
      this.sendOver(some.map(({ one }) => one)).then(
        (replies) => some.forEach(({ done }, which) => done(replies[which])),
        (fault) => some.forEach(({ fail }) => fail(fault)));
    }
  }

  // The room's answers over one connection.
  sendOver(messages) {
    const socket = connect(`${this.folder}/run/rooms/office/socket`);
    return new Promise((done, fail) => {
      const got = [];
      socket.on('data', (part) => got.push(part));
      socket.on('error', fail);
      socket.on('end', () => {
        const replies = repliesIn(Buffer.concat(got));
        if (replies.length === messages.length) done(replies);
        else fail(new Error(`${replies.length} of ${messages.length} answers`));
      });
      socket.end(Buffer.concat(messages.flatMap((one, at) =>
        messageOf(one, at === messages.length - 1))));
    });
  }

  // Many requests of one user: [[method, target, body]]. Returns how many of them weren't done.
  async send(user, messages) {
    let left = 0;
    for (let at = 0; at < messages.length; at += MESSAGES) {
      const replies = await this.sendOver(messages.slice(at, at + MESSAGES)
        .map(([method, target, body = '']) => ({ user, method, target, body })));
      left += replies.filter(({ status }) => status >= 300).length;
    }
    return left;
  }

  // The page's fetch, for a user who finds these people in the directory, or none.
  fetchFor(user, people) {
    return async (where, { method = 'GET', body = '', headers = {} } = {}) => {
      if (where === 'me') {
        return new Response(null, { status: 204, headers: { 'Room-User': user } });
      }
      if (where === 'people' && people !== null) return Response.json(people);
      if (where === 'people' || where === 'mine') return new Response(null, { status: 404 });
      if (where.startsWith('earlier/')) return this.earlier(decodeURIComponent(where));
      if (where === 'door/would') this.questions.push(body);
      const bytes = body instanceof Blob ? Buffer.from(await body.arrayBuffer()) : body;
      const reply = await this.ask(user, method, `/${where}`, bytes, headers);
      return new Response(reply.status === 204 ? null : reply.body,
        { status: reply.status, headers: reply.headers });
    };
  }

  // The page's way to send a document, over its fetch.
  static get uploading() {
    return class {
      upload = {};

      fields = {};

      open(method, where) { Object.assign(this, { method, where }); }

      setRequestHeader(name, value) { this.fields[name] = value; }

      getResponseHeader(name) { return this.headers.get(name); }

      async send(body) {
        const { method, fields: headers } = this;
        const reply = await globalThis.fetch(this.where, { method, body, headers });
        Object.assign(this, { status: reply.status, headers: reply.headers,
          responseText: await reply.text() });
        this.onload();
      }
    };
  }

  // What was kept of an earlier night: 'night' has the answers by what is asked.
  earlier(where) {
    const { status, body } = this.night.get(where.replace(/^earlier\/[^/]*\//, ''))
      ?? { status: 404, body: '{}' };
    return new Response(body, { status });
  }

  // Keeps what a user finds there now: 'words' are what is asked of each path.
  async keepNight(user, asked) {
    this.night.clear();
    for (const where of asked) this.night.set(where, await this.ask(user, 'GET', `/${where}`));
  }

  // A copy of the room, since that is served.
  copied() {
    const copy = `${this.folder}/copy`;
    for (const ending of ['', '-wal']) {
      rmSync(copy + ending, { force: true });
      const file = `${this.folder}/F${ending}`;
      if (existsSync(file)) copyFileSync(file, copy + ending);
    }
    return copy;
  }

  run(...words) {
    return execFileSync(this.program, words, { maxBuffer: 1 << 30,
      stdio: ['ignore', 'pipe', 'inherit'] }).toString();
  }

  // What 'rooms dump' says of a copy.
  dump(copy) { return this.run('dump', copy); }

  // What 'rooms review --all' says of these folders of a copy, with these members.
  review(copy, groups, folders) {
    const members = Object.entries(groups).flatMap(([group, users]) =>
      users.map((user) => `${group},${user}`));
    writeFileSync(`${this.folder}/groups.csv`, ['group,user', ...members, ''].join('\n'));
    this.run('groups', copy, `${this.folder}/groups.csv`);
    return folders.map((name) => this.run('review', '--all', copy, `/${name}`)).join('');
  }
}
