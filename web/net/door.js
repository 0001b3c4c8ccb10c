// The door beside the room, which answers in one request what would take thousands (docs/door.md).

import { target } from './addresses.js';
import { Refusal, STOPPED, fromDoor, jsonOrNull, namesOf } from './api.js';
import { untilAnswered } from './retry.js';
import { replyTo } from './sent_first.js';

// What the room would be asked for, so that a refusal is told in the same words.
const ROOM_ROUTES = {
  below: 'folder', find: 'folder', goes: 'folder', latest: 'folder', left: 'object', pages: 'doc',
  pieces: 'doc', remove: 'object', search: 'folder', upload: 'doc', zip: 'folder',
};

// Sends until the door answers, for half a minute.
export const untilDoorAnswers = (send) => untilAnswered(() => send().catch(fromDoor));

// The reply itself, with what was asked for, and what ends it if it is cut off. 'given' is what
// fetch takes.
async function send(method, word, path, query, given) {
  const asked = { method, word: ROOM_ROUTES[word] ?? word, path };
  const lost = () => { throw new Refusal(given.signal?.aborted ? STOPPED : 0, null, asked); };
  const reply = await replyTo(target(`door/${word}`, path) + query,
    { method, cache: 'no-store', ...given }).catch(lost);
  if (!reply.ok) {
    throw new Refusal(reply.status, jsonOrNull(await reply.text().catch(() => '')), asked);
  }
  return { reply, asked, lost };
}

// The reply in a form that fetch has, with its tag.
export async function ask(method, word, path, form, query = '', given = {}) {
  const { reply, lost } = await send(method, word, path, query, given);
  return { told: reply.status === 204 ? null : await reply[form]().catch(lost),
    tag: reply.headers.get('ETag'), pages: Number(reply.headers.get('Room-Pages')) };
}

const read = (word, path, query = '') =>
  untilDoorAnswers(() => ask('GET', word, path, 'json', query)).then(({ told }) => told);

// What differs below a folder. 'apart' is a path below it: what lies on the way there is told by
// itself.
export function differsBelow(path, apart = path) {
  const isApart = apart !== path && apart.startsWith(path === '/' ? '/' : `${path}/`);
  const rest = isApart ? namesOf(apart).slice(namesOf(path).length) : [];
  return read('below', path,
    rest.length === 0 ? '' : `?${rest.map(encodeURIComponent).join('/')}`);
}

// The last second that a date of the browser has.
const LAST = 8640000000000;
const isCount = (value, most) => Number.isInteger(value) && value >= 0 && value <= most;
const FITS = {
  when: (value) => isCount(value, LAST), before: (value) => isCount(value, LAST),
  size: (value) => isCount(value, Number.MAX_SAFE_INTEGER),
  who: (value) => typeof value === 'string' && value !== '',
};

// What is told of one object beside its name, as far as it is what it should be.
const knownOf = (told) => Object.fromEntries(
  Object.entries(FITS).filter(([name, fits]) => fits(told[name])).map(([name]) =>
    [name, told[name]]));
const SHOWS = ['when', 'who'];
const shownIn = (shows) => (SHOWS.includes(shows) ? shows : null);

// What is known of a folder beside the names in it: those that can't be opened, as a set; by name
// what else is told, {when, before, who, size}; whether that is told in this room, 'when', 'who',
// or null; and whether texts are searched. Both are undefined where there is no answer. It is asked
// once: nothing waits for it.
export const detailsIn = (path) => ask('GET', 'folder', path, 'json')
  .then(({ told: { closed, rows = [], shows, searches } }) => ({ closed: new Set(closed),
    known: new Map(rows.map((one) => [one.name, knownOf(one)])), shows: shownIn(shows),
    searches: searches === true }))
  .catch(() => ({ closed: new Set(), known: new Map(), shows: undefined, searches: undefined }));

// The documents below a folder that changed last: {found: [{path, when, who, size}], shows}.
export async function newestBelow(path) {
  const { found, shows } = await read('latest', path);
  return { shows: shownIn(shows),
    found: found.map((one) => ({ path: String(one.path), ...knownOf(one) })) };
}

// The names below a folder that contain a text: {all, found: [{path, kind}], unlisted: [path]}.
export const findBelow = (path, text) => read('find', path, `?${encodeURIComponent(text)}`);

const isText = (value) => Array.isArray(value) && value.length === 3
  && value.every((one) => typeof one === 'string');
const countIn = (value) => (isCount(value, Number.MAX_SAFE_INTEGER) ? value : 0);
// The moment in the name of a night, such as 2026-11-30.020000, in seconds since 1970.
const momentOf = (night) => new Date(String(night).replace(
  /^(\d{4}-\d\d-\d\d)\.(\d\d)(\d\d)(\d\d)$/, '$1T$2:$3:$4')).getTime() / 1000;

// The documents below a folder in whose texts these words stand: {all, found: [{path, count,
// text}], night, unread, without}. 'text' is what stands before a word, the word, and what stands
// behind it, or null. It isn't asked for again by itself.
export const searchBelow = (path, text) =>
  ask('GET', 'search', path, 'json', `?${encodeURIComponent(text)}`).then(({ told }) => ({
    all: told.all === true, night: momentOf(told.night), unread: countIn(told.unread),
    without: countIn(told.without), found: told.found.map((one) => ({ path: String(one.path),
      count: countIn(one.count), text: isText(one.text) ? one.text : null })) }), fromDoor);

// nginx takes a line of 16 kB, in which the room's own place stands too.
const LONGEST = 16000;

// Names in a folder, as the door takes them: in several queries if they are too long for one.
function queriesOf(folder, names) {
  const most = LONGEST - target('door/goes', folder).length;
  const found = [];
  for (const name of names.map(encodeURIComponent)) {
    const longer = `${found.at(-1)}&${name}`;
    if (found.length > 0 && longer.length <= most) found.splice(-1, 1, longer);
    else found.push(`?${name}`);
  }
  return found;
}

// What goes with these names of a folder, each after the folder that it is in: {objects: [{path,
// kind}], unlisted: [path], barred, tag}. 'barred' is what the caller may not remove, as {path, at}
// with the path of the list that says so, or null. 'tag' is another one once any of it is.
export const whatGoes = (folder, names) => untilDoorAnswers(() => ask('POST', 'goes', folder,
  'json', '', { body: JSON.stringify(names) })).then(({ told }) => told);

// The lines of a reply, each as it comes.
async function* linesOf({ reply, lost }) {
  const reader = reply.body.pipeThrough(new TextDecoderStream()).getReader();
  let rest = '';
  for (;;) {
    const { done, value } = await reader.read().catch(lost);
    if (done) return;
    const lines = `${rest}${value}`.split('\n');
    rest = lines.pop();
    yield* lines.map(jsonOrNull);
  }
}

// Removes these names of a folder with all below them, if that has this tag: in one request, as
// long as the door goes on. 'onGone' is called for each object that is gone.
export async function removeNames(folder, names, tag, onGone, signal) {
  let last = { left: 1, tag };
  while (last.left > 0) {
    const given = { body: JSON.stringify(names), headers: { 'If-Match': last.tag }, signal };
    const sent = await untilDoorAnswers(() => send('POST', 'remove', folder, '', given));
    last = null;
    for await (const line of linesOf(sent)) {
      if (line?.path === undefined) last = line;
      else onGone();
    }
    if (last === null) sent.lost();
    if (last.status) fromDoor(new Refusal(last.status, last, sent.asked));
  }
}

// A folder with all in it as one ZIP, or with these names alone. It isn't asked for again by
// itself. Null if the names are too many for one request.
export async function zipped(folder, names, signal) {
  const queries = names === null ? [''] : queriesOf(folder, names);
  if (queries.length > 1) return null;
  const { told } = await ask('GET', 'zip', folder, 'blob', queries[0], { signal })
    .catch(fromDoor);
  return told;
}

// A document or a list with the tag that says which bytes it has: {blob, tag}.
export const readTagged = (word, path, signal = undefined) =>
  untilDoorAnswers(() => ask('GET', word, path, 'blob', '', { signal }))
    .then(({ told, tag }) => ({ blob: told, tag }));

// A page of a PDF as a picture, {blob, tag, pages}, with how many pages there are; null where no
// pictures are made. If the document isn't the one with 'tag' any more, it is refused with 412.
export const pictureOf = (path, number, tag = null) => untilDoorAnswers(() => ask('GET', 'pages',
  path, 'blob', `?${number}`, { headers: tag === null ? {} : { 'If-Match': tag } }))
  .then(({ told, ...more }) => told && { blob: told, ...more });

// Those whom its list lets change a document or a list, by name: users, groups as g:NAME, special
// ones; null where the caller may not know it, and undefined if the door can't tell. It tells that
// of what isn't the one that was seen, and nothing has an empty tag.
export const changersOf = (word, path) =>
  untilDoorAnswers(() => ask('GET', word, path, 'text', '', { headers: { 'If-Match': '""' } }))
    .then(() => undefined, (fault) => (fault.status === 403 ? null : fault.body?.who));

// The tag of a document alone.
export const tagAt = (path) => untilDoorAnswers(() => ask('HEAD', 'doc', path, 'text'))
  .then(({ tag }) => tag);

// Takes away what an upload left that was broken off.
export const removeLeft = (path) =>
  untilDoorAnswers(() => ask('DELETE', 'left', path, 'text'));

export const putList = (which, path, text, fields) =>
  untilDoorAnswers(() => ask('PUT', which, path, 'text', '', { body: text, headers: fields }));
